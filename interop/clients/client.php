<?php
// What a client of php-amqplib does with a broker at 127.0.0.1 and the port that is given. It prints a line for each
// thing.
require_once 'PhpAmqpLib/autoload.php';

use PhpAmqpLib\Connection\AMQPStreamConnection;
use PhpAmqpLib\Exception\AMQPProtocolChannelException;
use PhpAmqpLib\Message\AMQPMessage;
use PhpAmqpLib\Wire\AMQPTable;

ini_set('memory_limit', '-1');
$failed = false;

function says($what, $wanted, $found)
{
    global $failed;
    if ($wanted === $found) {
        echo "ok: php-amqplib: $what\n";
        return;
    }
    $failed = true;
    [$wanted, $found] = [substr(var_export($wanted, true), 0, 200), substr(var_export($found, true), 0, 200)];
    echo "failed: php-amqplib: $what: wanted $wanted, and not $found\n";
}

// A read that waits for longer than its time loses what it has of a frame: so it has a minute, and not three seconds.
$times = ['connection_timeout' => 3.0, 'read_write_timeout' => 60.0];
$connection = new AMQPStreamConnection('127.0.0.1', (int) $argv[1], 'guest', 'guest', ...$times);
$channel = $connection->channel();
$channel->confirm_select();
[$queue] = $channel->queue_declare('', false, false, true, false);
$channel->exchange_declare('b.php', 'topic', false, false, false);
$channel->queue_bind($queue, 'b.php', 'a.#');
$acked = 0;
$channel->set_ack_handler(function () use (&$acked) {
    $acked++;
});
foreach ([0, 1, 131072 - 8, 1000000, 50000000] as $size) {
    $body = str_repeat('x', $size);
    $message = new AMQPMessage($body, ['application_headers' => new AMQPTable(['size' => $size])]);
    $channel->basic_publish($message, 'b.php', 'a.b');
    $channel->wait_for_pending_acks(60);
    $came = $channel->basic_get($queue, true);
    $headers = $came->get('application_headers')->getNativeData();
    says("get a content of $size octets", [true, $size], [$came->getBody() === $body, $headers['size']]);
}
says('confirms', 5, $acked);
$returned = [];
$channel->set_return_listener(function ($code, $text, $exchange, $key, $message) use (&$returned) {
    $returned[] = [$code, $text, $exchange, $key, $message->getBody()];
});
$channel->basic_publish(new AMQPMessage('m'), 'b.php', 'nowhere', true);
$channel->wait_for_pending_acks_returns(60);
says('a return', [[312, 'NO_ROUTE', 'b.php', 'nowhere', 'm']], $returned);
$seen = [];
$channel->basic_qos(0, 100, false);
$channel->basic_consume($queue, 'one', false, false, false, false, function ($message) use (&$seen) {
    $seen[] = $message->getBody();
    $message->ack();
});
for ($number = 0; $number < 10000; $number++) {
    $channel->basic_publish(new AMQPMessage((string) $number), 'b.php', 'a');
}
while (count($seen) < 10000) {
    $channel->wait(null, false, 60);
}
says('10000 messages in order, with confirms and acks', true, $seen === array_map('strval', range(0, 9999)));
$channel->basic_cancel('one');
$channel->exchange_delete('b.php');
$other = $connection->channel();
$code = null;
try {
    $other->queue_declare('b.nowhere', true);
} catch (AMQPProtocolChannelException $error) {
    $code = $error->getCode();
}
says('passive declare of no such queue', 404, $code);
$connection->close();
exit($failed ? 1 : 0);
