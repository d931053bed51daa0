#!/usr/bin/env -S jq -nrf
# Expanded commands to SeqJSON (version 1.0.20): convert/to_seqjson.jq [--argjson expand N] [--arg id ID] OUTPUT
# takes the N-th reply of `expand`, the first where no N is given; the sequence is named after its branch where no ID is. What has no
# counterpart is named on standard error.

def end_with($status; $lines): $lines | map("to_seqjson: \(.)\n") | add // "" | halt_error($status);
def argument: if type == "boolean" then {type: "boolean", value: .} elif type == "number" then {type: "number", value: .}
  else {type: "string", value: sub("^.*[.]"; "")} end;

[try inputs catch end_with(1; ["the input is no JSON: \(.)"])] as $inputs
| ($ARGS.named.expand // 1) as $n
| [$inputs[] | objects | .ok? | objects | select(.commands | type == "array")][if $n < 1 then 1000000000 else $n - 1 end] as $ok
| if $ok == null then end_with(1; ["the input has no reply of `expand` number \($n); it takes what ./aerie run prints"]) else . end
| [$ok.commands | to_entries[] | .key as $at | .value.arguments[] | numbers | select(fabs >= 9007199254740992) | "command \($at): jq does not keep numbers from 2^53 on"] as $faults
| if $faults != [] then end_with(1; $faults) else . end
| {id: ($ARGS.named.id // $ok.branch), metadata: {branch: $ok.branch, revision: $ok.revision},
    steps: [$ok.commands[] | {args: [.arguments[] | argument], metadata: {path}, stem: .name, time: {tag: .utc, type: "ABSOLUTE"}, type: "command"}]},
  end_with(0; [$ok | (select(.outcome != "completed") | "the run did not complete: \(.outcome | tojson)"),
    (.close[] | "command \(.) is too close behind the one before it"),
    (.outside[] | "left out: \(.name) at \(.at), which is outside the plan")])
