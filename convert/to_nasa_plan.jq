#!/usr/bin/env -S jq -nrf
# A plan of `show`, or the JSON of `load`, to a plan that NASA's Aerie imports (version 2):
#   convert/to_nasa_plan.jq [--argjson show N] [--arg name NAME] [--arg start_time UTC] [--arg duration HH:MM:SS] OUTPUT
# takes the N-th plan, the first where no N is given. What has no counterpart is named on standard error.

def end_with($status; $lines): $lines | map("to_nasa_plan: \(.)\n") | add // "" | halt_error($status);
def is_whole: type == "number" and . == floor and fabs < 9007199254740992;
def two: tostring | if length < 2 then "0" + . else . end;
def clock: (. % 1000000) as $f | (. / 1000000 | floor) as $s
  | "\($s / 3600 | floor | two):\($s / 60 | floor % 60 | two):\($s % 60 | two)" + if $f > 0 then ".\("000000\($f)"[-6:])" else "" end;

def activity($id): {anchor_id: .anchor.to, anchored_to_start: (.anchor.edge != "end"),
  arguments: (.arguments // {} | with_entries(.value |= if type == "string" then sub("^.*[.]"; "") elif type == "number" then floor else . end)),
  id: $id, metadata: {}, name: .type, start_offset: (.start | clock), tags: [], type};

def faults($ids; $at): "directive \(.id // $at): " +
  ( (select(.type | type != "string") | "its `type` is no text"),
    (select(.start | is_whole and . >= 0 | not) | "its `start` is no whole number of microseconds"),
    (select(.anchor != null and $ids["\(.anchor.to)"] != true) | "its anchor, \(.anchor.to), is not in the plan"),
    (.arguments // {} | to_entries[] | select(.value | is_whole or type == "boolean" or type == "string" | not)
      | "the argument `\(.key)` is no whole number below 2^53, no truth and no variant"));

def enums: reduce (.[] | .type as $type | .arguments // {} | to_entries[] | select(.value | type == "string")
  | {"\($type).\(.key)": (.value | sub("[.].*$"; ""))}) as $it ({}; . + $it);

[try inputs catch end_with(1; ["the input is no JSON: \(.)"])] as $inputs
| ($ARGS.named.show // 1) as $n
| [$inputs[] | objects | .ok?.plan?, . | objects | .directives | arrays
    | select(all(type == "object" and ([.arguments, .anchor] | all(. == null or type == "object"))))][if $n < 1 then 1000000000 else $n - 1 end] as $directives
| if $directives == null then end_with(1; ["the input has no plan number \($n); it takes what `show` prints, or the JSON of `load`"]) else . end
| (reduce $directives[].id as $id ({}; . + {"\($id)": true})) as $ids
| ([$directives[].id | numbers] | max // 0) as $most
| [$directives | to_entries[] | .key as $at | .value | faults($ids; $at)] as $faults
| if $faults != [] then end_with(1; $faults) else . end
| ($ARGS.named | {name, start_time, duration} | with_entries(select(.value != null))) as $given
| {activities: [$directives | to_entries[] | .key as $at | .value | activity(.id // $most + 1 + $at)]} + $given + {simulation_arguments: {}, tags: [], version: "2"},
  end_with(0; [["name", "start_time", "duration"] - ($given | keys) | select(length > 0) | "to be added to the plan: \(join(", "))"]
    + [$directives | enums | select(. != {}) | "left out are the enumerations: \(tojson)"])
