#!/usr/bin/env -S jq -nrf
# A plan that NASA's Aerie exported (version 2) to the JSON of `load`: convert/from_nasa_plan.jq [--argjson enums ENUMS] PLAN.json
# ENUMS, as {"TYPE.PARAMETER":"ENUM"}, names the enumerations of arguments whose texts are variants alone. What has no counterpart is
# named on standard error. Where that is the start, the anchor or an argument of an activity, nothing is printed and the status is 1.

def end_with($status; $lines): $lines | map("from_nasa_plan: \(.)\n") | add // "" | halt_error($status);
def is_name: type == "string" and test("^[A-Za-z_][A-Za-z0-9_]*$");
# jq keeps whole numbers below 2^53 alone.
def is_whole: type == "number" and . == floor and fabs < 9007199254740992;

# The microseconds of an interval as the database prints it: 1 day 02:03:04.5
def interval: [strings
  | capture("^(?:(?<days>[-+]?[0-9]+) days?)?(?:(?:^| )(?<sign>[-+]?)(?<h>[0-9]+):(?<m>[0-5]?[0-9]):(?<s>[0-5]?[0-9])(?:\\.(?<f>[0-9]{1,6})0*)?)?$")
  | select(.days != null or .h != null)
  | ([.days, .h, .m, .s, ((.f // "") + "000000")[:6]] | map(. // "0" | ltrimstr("+") | tonumber)) as [$days, $h, $m, $s, $f]
  | $days * 86400000000 + (if .sign == "-" then -1 else 1 end) * ((($h * 60 + $m) * 60 + $s) * 1000000 + $f)][0];

def literal($enum): if type == "boolean" then . elif is_whole then floor elif type != "string" then null
  else (if $enum != null then "\($enum)." else "" end) + . | if test("^[A-Za-z0-9_]+\\.[A-Za-z0-9_]+$") then . else null end end;

# An activity without an anchor begins after the plan's start, or, not `anchored_to_start`, after its end.
def directive($duration; $enums): .type as $type | (.start_offset | interval) as $offset
  | (if .id == null then {} else {id} end)
  + {type, arguments: (.arguments // {} | with_entries(.key as $name | .value |= literal($enums["\($type).\($name)"]))),
      start: (if .anchor_id != null or .anchored_to_start != false then $offset elif $offset == null or $duration == null then null else $duration + $offset end)}
  + if .anchor_id == null then {} else {anchor: {edge: (if .anchored_to_start == false then "end" else "start" end), to: .anchor_id}} end;

def faults($ids): "activity \(.id // .type): " +
  ( (select(.type | is_name | not) | "its `type` is no name"),
    (select(has("id") and (.id | is_whole and . >= 0 and . < 4294967296 | not)) | "its `id` is no number from 0 to 4,294,967,295"),
    (select(.start == null) | "its `start_offset` is no interval in days, hours, minutes, seconds, or the plan has no `duration`"),
    (select(.start != null and .start < 0) | "it begins before the plan or its anchor"),
    (select(.anchor != null and $ids["\(.anchor.to)"] != true) | "its anchor, \(.anchor.to), is not in the plan"),
    (.arguments | to_entries[] | select(.value == null or (.key | is_name | not))
      | "the argument `\(.key)` is no whole number below 2^53, no truth and no variant of a known enumeration"));

def has_content: . != null and . != "" and . != [] and . != {};
def notes: . as $plan
  | (select(.version != null and .version != "2") | "the plan is of version \(.version); the keys of version 2 were taken"),
    (keys_unsorted - ["activities", "duration", "start_time", "version"] | map(select($plan[.] | has_content)) | select(length > 0)
      | "left out of the plan: \(join(", "))"),
    ([.activities[] | . as $it | keys_unsorted - ["anchor_id", "anchored_to_start", "arguments", "id", "start_offset", "type"] | .[]
      | select(($it[.] | has_content) and (. != "name" or $it.name != $it.type)) | {key: ., id: ($it.id // $it.type)}] | group_by(.key)[]
      | "left out of activities: \(.[0].key) (\(.[:10] | map(.id | tostring) | join(", "))\(if length > 10 then ", .. \(length)" else "" end))"),
    (select(.start_time != null) | "in the session: start \"\(.start_time | tostring | sub("[+]00:00$"; "Z"))\";"),
    (.duration | interval | values | "in the session: duration \(.)us;");

[try inputs catch end_with(1; ["the input is no JSON: \(.)"])] as $inputs
| $inputs[0] as $plan
| if ($inputs | length) != 1 or ($plan | type) != "object" or ($plan.activities | type) != "array"
    or ($plan.activities | all(type == "object" and (.arguments == null or (.arguments | type) == "object")) | not)
  then end_with(1; ["the input is no plan of NASA's Aerie, an object whose `activities` are objects"]) else . end
| ($plan.duration | interval) as $duration
| [$plan.activities[] | directive($duration; $ARGS.named.enums // {})] as $directives
| (reduce $directives[].id as $id ({}; . + {"\($id)": true})) as $ids
| [$directives[] | faults($ids)] as $faults
| if $faults != [] then end_with(1; $faults) else ({directives: $directives} | tojson), end_with(0; [$plan | notes]) end
