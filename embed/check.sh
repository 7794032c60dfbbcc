#!/bin/sh
# Runs the tests of the library in C, C++, Rust and Python, under the sanitizers and valgrind where they are there,
# and says what it left out. Run embed/build first.
set -eu

top=$(cd "$(dirname "$0")/.." && pwd)
c="$top/embed/c"
made="$c/out"
work=$(mktemp -d)
trap 'rm -rf "$work"' EXIT
cc=${CC:-cc}
cxx=${CXX:-c++}
strict="-Wall -Wextra -pedantic -Werror"
say() { echo "embed/check.sh: $*"; }
have() { command -v "$1" >/dev/null 2>&1; }

# ends with what a test said
failed() {
	cat "$work/said"
	say "$1: failed"
	exit 1
}

[ -f "$made/libmeadowtray.a" ] || { say "there is no archive: run embed/build"; exit 1; }

# What restates the tables of docs/PROTOCOL.md is what its script writes.
if have python3; then
	python3 -B "$top/tools/c_methods.py" --check || exit 1
	say "tables of methods and properties: passed"
else
	say "left out the tables of methods and properties: there is no python3"
fi

# Only the names of the header are exported.
for file in "$made/libmeadowtray.a" "$made/libmeadowtray.so"; do
	case $file in *.so) names="nm -D --defined-only" ;; *) names="nm -g --defined-only" ;; esac
	if $names "$file" | awk 'NF == 3 && $3 !~ /^mt_/ { print $3; found = 1 } END { exit !found }'; then
		say "$file exports other names"
		exit 1
	fi
done
say "exported names: passed"

# whether programs that are built so can be built and run here
runs() {
	printf 'int main(void) { return 0; }\n' >"$work/empty.c"
	"$@" -o "$work/empty" "$work/empty.c" -lpthread 2>/dev/null && "$work/empty"
}

# the C tests, built by these words and run by those
tests() {
	label=$1
	runner=$2
	shift 2
	for source in "$c"/tests/*.c; do
		name=$(basename "$source" .c)
		"$@" -std=c11 $strict -I"$c" -o "$work/$name" "$source" "$made/libmeadowtray.a" -lpthread
		$runner "$work/$name" >"$work/said" || failed "$name, $label"
	done
	say "C, $label: passed"
}

tests plain "" "$cc" -O2
for sanitizer in address,undefined thread; do
	if runs "$cc" -fsanitize=$sanitizer; then
		tests "$sanitizer sanitizer" "" "$cc" -O1 -g -fsanitize=$sanitizer -fno-sanitize-recover=all
	else
		say "left out the $sanitizer sanitizer: $cc has none here"
	fi
done
if have valgrind; then
	tests valgrind "valgrind -q --error-exitcode=9 --leak-check=full --errors-for-leak-kinds=all" "$cc" -O1 -g
else
	say "left out valgrind: it isn't there"
fi
for source in "$c"/examples/*.c; do
	"$cc" -std=c11 -D_POSIX_C_SOURCE=200112L $strict -O2 -I"$c" -o "$work/example" "$source" \
		"$made/libmeadowtray.a"
done
say "C examples: built"
if printf '#include <amqp.h>\n' | "$cc" -E - >/dev/null 2>&1; then
	"$cc" -std=c11 -D_POSIX_C_SOURCE=200112L $strict -O2 -I"$c" -o "$work/calls" "$top/bench/embed/calls.c" \
		"$made/libmeadowtray.a" -lrabbitmq
	say "C benchmark: built"
else
	say "left out the C benchmark: rabbitmq-c isn't there"
fi
if have "$cxx"; then
	for source in "$c"/tests/*.cpp; do
		"$cxx" -std=c++17 $strict -I"$c" -o "$work/cpp" "$source" "$made/libmeadowtray.a"
		"$work/cpp"
	done
	say "C++17: passed"
else
	say "left out C++: there is no $cxx"
fi
if have cargo; then
	(cd "$top/embed/rust" && MEADOWTRAY_LIB="$made" cargo test --offline --quiet) >"$work/said" 2>&1 || failed Rust
	say "Rust: passed"
else
	say "left out Rust: there is no cargo"
fi
if have python3; then
	for source in "$top"/embed/python/test_*.py; do
		MEADOWTRAY_LIB="$made" python3 -B "$source" >"$work/said" 2>&1 || failed Python
	done
	say "Python: passed"
else
	say "left out Python: there is no python3"
fi
