#!/usr/bin/env bash
# Replays each capture of a folder and of the folders in it with the built program, and says of each that differs at which
# call, and what was wanted there.
#
#     tools/conform.sh FOLDER [LISTER]
#
# It uses crates/amqp_gate/out/amqp_gate, or the program that AMQP_GATE names. With a LISTER, a program that prints a capture's
# listing as `LISTER FILE K AROUND`, the entries around the first call that differs stand below it; without one `show capture`
# lists them, without the bytes. The last line has the counts; the status is 0 where every capture replays the same.
set -u
program=${AMQP_GATE:-"$(dirname "$0")/../crates/amqp_gate/out/amqp_gate"}
if [ $# -lt 1 ] || [ ! -x "$program" ]; then
    echo "usage: tools/conform.sh FOLDER [LISTER], once $program is built" >&2
    exit 2
fi
folder=$1
lister=${2:-}
around=4

# the entries around a call, as this capture wants them
wanted() {
    local file=$1 call=$2
    if [ -n "$lister" ]; then
        "$lister" "$file" "$call" "$around"
    else
        local first=$((call > around ? call - around + 1 : 1))
        "$program" show capture <"$file" | sed -n "${first},$((call + around + 1))p"
    fi
}

all=0
same=0
while IFS= read -r file; do
    all=$((all + 1))
    answer=$("$program" replay <"$file" 2>&1)
    status=$?
    case $status:$answer in
    0:same:*) same=$((same + 1)) ;;
    1:differs\ at\ call\ *)
        echo "$file: $answer"
        wanted "$file" "${answer##* }"
        ;;
    *) echo "$file: status $status: $answer" ;;
    esac
done < <(find "$folder" -name '*.agc' | sort)
echo "captures: $same of $all the same"
[ "$same" = "$all" ]
