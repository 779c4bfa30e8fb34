# Small projects and tracefiles whose counts are worked out by hand. Suites load this after common.
# shellcheck shell=bash

# A project of one test. By hand: gcc counts the lines 1, 2, 4 and 5 of twice.c, of which 1 and 2 are run, and 1 and 3 of test.c, which
# are: 4 of 6 lines, and 2 of 3 functions.
project() { # FOLDER
    mkdir -p "$1/ci" "$1/src"
    cp "$recipes/ci.sh" "$recipes/intake" "$recipes/lcov2.awk" "$recipes/cobertura.awk" "$recipes/github-problem-matcher.json" "$1/ci"
    cat >"$1/src/twice.c" <<'END'
int twice(int x) {
    return 2 * x;
}
int never(int x) {
    return x;
}
END
    printf 'int main(void) {\n    int twice(int x);\n    return twice(21) == 42 ? 0 : 1;\n}\n' >"$1/src/test.c"
    # Never run, and not a part of the test's program: it counts only by the baseline.
    printf 'int other(void) {\n    return 7;\n}\n' >"$1/src/other.c"
    cat >"$1/Makefile" <<'END'
test: src/test.o src/twice.o
	gcc $(LDFLAGS) -o $@ $^
check: test
	./test
%.o: %.c
	gcc $(CFLAGS) -c -o $@ $<
END
}

# The commands of README.md's quick start, without their indent.
quick_start() { sed -n '/^    covcollect combine/,$p' "$recipes/../README.md" | sed '/^$/,$d; s/^    //'; }

# tiny.c: twice is called 3 times, never not at all, main once. Lines 2, 6, 10 and 12 are run 3, 0, 1 and 3 times.
# half.cpp: half of int is called 3 times (4, 6, -1), half of double once; it throws once and returns 3 times. Line 16 is run once,
# line 18 never. The test of line 4 is true once and false 3 times.
programs() {
    cat >tiny.c <<'END'
int twice(int x) {
    return 2 * x;
}

int never(int x) {
    return x;
}

int main(void) {
    int sum = 0;
    for (int i = 0; i < 3; i++)
        sum += twice(i);
    return sum == 6 ? 0 : never(sum);
}
END
    cat >half.cpp <<'END'
#include <stdexcept>
template <class T> T half(T x) {

    if (x < 0)
        throw std::runtime_error("negative");
    return x / 2;
}
int main() {

    half(4);
    half(6);
    half(5.0);
    try {
        half(-1);
    } catch (const std::runtime_error &) {
        return 0;
    }
    return 1;
}
END
    # Statements: 9, of which those of lines 5 and 10 aren't run. Functions: twice is called, never isn't. Branches: of line 8 both
    # are taken, of line 9 one of two.
    cat >tiny.py <<'END'
def twice(x):
    return 2 * x

def never(x):
    return x

total = 0
for i in range(3):
    if i > 5:
        never(i)
    total += twice(i)
END
}

# A covcollect without --lcov2, --strict, --large, --fail-under-lines and combine, as it was before: for recipes that ask it.
old_program() { # FILE
    cat >"$1" <<END
#!/bin/bash
for word; do
    [ "\$word" != -- ] || break
    case \$word in --lcov2 | --strict | --large | --fail-under-* | combine) echo "old: no \$word" >&2; exit 2 ;; esac
done
[[ " \$* " != *' --help '* ]] || exec grep -v -e --lcov2 -e --strict -e --large -e --fail-under -e combine <("$COVCOLLECT" "\$@")
exec "$COVCOLLECT" "\$@"
END
    chmod +x "$1"
}

# Tracefiles with three tests, four sources, lines, functions and branches; names with spaces among them.
tracefiles() { # FOLDER FIRST LAST
    local number
    mkdir -p "$1"
    for ((number = $2; number <= $3; number++)); do
        printf 'TN:t%d\nSF:/s/%d.c\nFN:1,f\nFNDA:%d,f\nBRDA:1,0,0,%d\nBRDA:1,0,1,-\nDA:1,%d\nDA:%d,0\nend_of_record\n' \
            $((number % 3)) $((number % 4)) "$number" "$number" "$number" $((number + 1)) >"$1/f $number.info"
    done
}
together() { # FILE FOLDER: one merge of all tracefiles below the folder
    local names
    mapfile -d '' -t names < <(find -L "$2" -name '.*' -prune -o -name '*.info' -print0 | sort -z)
    "$COVCOLLECT" merge -- "${names[@]}" >"$1"
}

# The steps of a job of github.yml or gitlab.yml as a shell would run them, where $ARTIFACTS is what GitHub keeps of the jobs.
job_steps() {
    cat >steps.rb <<'END'
require "shellwords"
require "yaml"
file, job, suite = ARGV
filled = ->(text) { text.to_s.gsub("${{ matrix.suite }}", suite) }
variables = ->(of) { (of || {}).each { |name, value| puts "export #{name}=#{Shellwords.escape(filled.(value))}" } }
it = YAML.load_file(file)
if file.end_with?("gitlab.yml")
  # Variables of the job may name those of the matrix.
  puts "export SUITE=#{suite}"
  (it[job]["variables"] || {}).each { |name, value| puts "export #{name}=#{Shellwords.escape(value.gsub("$SUITE", suite))}" }
  puts it[job]["script"]
else
  # Steps with a condition are those that keep what there is, whatever happened.
  it["jobs"][job]["steps"].reject { |step| step["if"] }.each do |step|
    with = step["with"]
    case step["uses"].to_s[/[a-z-]+(?=@)/]
    when "upload-artifact"
      folder = "\"$ARTIFACTS\"/#{filled.(with["name"])}"
      puts "mkdir -p #{folder}", "cp -r #{with["path"]} #{folder}"
    when "download-artifact"
      puts "mkdir -p #{with["path"]}", "cp -r \"$ARTIFACTS\"/#{with["pattern"]} #{with["path"]}"
    when nil
      variables.(step["env"])
      puts filled.(step["run"])
    end
  end
end
END
}
job_runs() { # FILE JOB SUITE: in the folder project
    ruby steps.rb "$recipes/$1" "$2" "$3" >project/steps
    call env -C project ARTIFACTS="$PWD/artifacts" bash -e steps
    cat "$work/err" >>"$work/out"
}
