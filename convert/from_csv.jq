#!/usr/bin/env -S jq -nRrf
# Times and values in CSV to a dataset: convert/from_csv.jq [--arg start UTC] FILE.csv
# A line has a time, a value (a whole number or a truth) and perhaps a rate for each microsecond. A time is whole microseconds from the
# plan's start or, with --arg start, a time in UTC, as 2031-06-01T00:10:00.5Z or 2031-152T00:10:00. A first line of other words is passed over.

def end_with($lines): $lines | map("from_csv: \(.)\n") | add | halt_error(1);
def is_whole: test("^-?(0|[1-9][0-9]*)$");
# The microseconds of a time in UTC since 1970.
def utc: [capture("^(?<year>[0-9]{4})-(?:(?<date>[0-9]{2}-[0-9]{2})|(?<day>[0-9]{3}))T(?<h>[01][0-9]|2[0-3]):(?<m>[0-5][0-9]):(?<s>[0-5][0-9])(?:[.](?<f>[0-9]{1,6}))?Z?$")
  | "\(.year)-\(.date // "01-01")T00:00:00Z" as $date | ($date | fromdate) as $from | (.day // "1" | tonumber) as $day
  | select(($from | todate) == $date and $day > 0 and ($from + ($day - 1) * 86400 | todate[:4]) == .year)
  | ([.h, .m, .s, ((.f // "") + "000000")[:6]] | map(tonumber)) as [$h, $m, $s, $f]
  | ($from + ($day - 1) * 86400 + ($h * 60 + $m) * 60 + $s) * 1000000 + $f][0];

$ARGS.named.start as $start
| (if $start == null then 0 else $start | utc end) as $zero
| if $zero == null then end_with(["the start \($start) is no time in UTC"]) else . end
| def time: if $start == null then (if is_whole and length < 17 then tonumber else null end) else utc as $at | if $at == null then null else $at - $zero end end;
  [foreach inputs as $line (0; . + 1; {number: ., fields: ($line | ltrimstr("\ufeff") | split(",") | map(capture("^\\s*\"?(?<field>.*?)\"?\\s*$").field))})]
| map(select(.fields != [] and .fields != [""])) | if .[0] and (.[0].fields[0] | time == null and test("^[A-Za-z]")) then .[1:] else . end
| map(. + {time: (.fields[0] | time)}) as $rows
| (if all($rows[]; .fields[1] == "true" or .fields[1] == "false") then "truth" elif all($rows[]; .fields | length == 3) then "linear" else "whole" end) as $kind
| [ ($rows[] | "line \(.number): " +
      ( (select(.time == null) | "\(.fields[0]) is no time"),
        (select(.fields | length != if $kind == "linear" then 3 else 2 end) | "it has \(.fields | length) fields"),
        (select($kind != "truth") | .fields[1:][] | select(is_whole | not) | "\(.) is no whole number"))),
    ($rows | select(length == 0) | "the input has no line with a time and a value"),
    ($rows | select(length > 10000) | "the input has \(length) times; a dataset has 10,000 at most"),
    ($rows[0].time | values | select(. != 0) | "the first time is \(.) microseconds from the start; a dataset begins at 0"),
    (range(1; $rows | length) | select($rows[.].time != null and $rows[. - 1].time != null and $rows[.].time <= $rows[. - 1].time)
      | "line \($rows[.].number): its time does not come after the one before") ] as $faults
| if $faults != [] then end_with($faults[:20]) else . end
| "{\"kind\":\"\($kind)\",\"segments\":[\([$rows[] | "[\(.time),\(.fields[1:] | join(","))]"] | join(","))]}"
