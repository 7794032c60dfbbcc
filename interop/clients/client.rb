# What a client of bunny does with a broker at 127.0.0.1 and the port that is given. It prints a line for each thing.
require "bunny"

$failed = false
$stdout.sync = true

def says(what, wanted, found)
  if wanted == found
    puts "ok: bunny: #{what}"
  else
    $failed = true
    puts "failed: bunny: #{what}: wanted #{wanted.inspect[0, 200]}, and not #{found.inspect[0, 200]}"
  end
end

def wait_until
  deadline = Time.now + 180
  sleep 0.02 until yield || Time.now > deadline
end

# a minute for an answer, in milliseconds
times = { heartbeat: 0, continuation_timeout: 60_000 }
connection = Bunny.new(host: "127.0.0.1", port: ARGV[0].to_i, automatically_recover: false, **times)
connection.start
channel = connection.create_channel
channel.confirm_select
queue = channel.queue("", exclusive: true)
exchange = channel.topic("b.rb")
queue.bind(exchange, routing_key: "a.#")
[0, 1, 131_072 - 8, 1_000_000, 50_000_000].each do |size|
  body = "x" * size
  exchange.publish(body, routing_key: "a.b", headers: { "size" => size })
  says("a confirm of #{size} octets", true, channel.wait_for_confirms)
  _, properties, came = queue.pop
  says("get a content of #{size} octets", [true, size], [came == body, properties[:headers]["size"]])
end
returned = []
exchange.on_return { |info, _, content| returned << [info[:reply_code], info[:reply_text], content] }
exchange.publish("m", routing_key: "nowhere", mandatory: true)
channel.wait_for_confirms
wait_until { !returned.empty? }
says("a return", [[312, "NO_ROUTE", "m"]], returned)
channel.prefetch(100)
seen = []
consumer = queue.subscribe(manual_ack: true) do |info, _, body|
  seen << body
  channel.ack(info.delivery_tag)
end
10_000.times { |number| exchange.publish(number.to_s, routing_key: "a") }
wait_until { seen.length == 10_000 }
says("10000 messages in order, with confirms and acks", true, seen == (0...10_000).map(&:to_s))
consumer.cancel
headers = channel.headers("amq.match")
queue.bind(headers, arguments: { "x-match" => "any", "kind" => "wanted", "size" => 1 })
headers.publish("yes", headers: { "kind" => "wanted" })
headers.publish("no", headers: { "kind" => "other" })
channel.wait_for_confirms
says("a headers exchange", ["yes", nil], [queue.pop.last, queue.pop.last])
exchange.delete
other = connection.create_channel
code = begin
  other.queue_declare("b.nowhere", passive: true)
  nil
rescue Bunny::NotFound => error
  error.channel_close.reply_code
end
says("passive declare of no such queue", 404, code)
connection.close
exit($failed ? 1 : 0)
