#!/usr/bin/env -S jq -nrf
# The profiles of a report to CSV: convert/to_csv.jq [--argjson report N] [--arg resource NAME] OUTPUT
# takes the N-th report, the first where no N is given. A line has the resource, from when on, the value and, of linear resources, the
# rate for each microsecond; with --arg resource it is of that resource alone, without its name. Times are microseconds from the start.

def end_with($lines): $lines | map("to_csv: \(.)\n") | add | halt_error(1);

[try inputs catch end_with(["the input is no JSON: \(.)"])] as $inputs
| ($ARGS.named.report // 1) as $n | $ARGS.named.resource as $one
| [$inputs[] | objects | .ok? | objects | .profiles | arrays][if $n < 1 then 1000000000 else $n - 1 end] as $profiles
| if $profiles == null then end_with(["the input has no report number \($n); it takes what ./aerie run prints"]) else . end
| [$profiles[] | select($one == null or .name == $one)] as $taken
| if $one != null and $taken == [] then end_with(["no resource is named \($one); there are: \([$profiles[].name] | join(", "))"]) else . end
| [$taken[] | .name as $name | .segments[] | select(.[1] | type == "number" and fabs >= 9007199254740992) | "\($name) at \(.[0]): jq does not keep numbers from 2^53 on"] as $faults
| if $faults != [] then end_with($faults) else . end
| (if $one == null then ["resource"] else [] end) as $head
| ($head + ["from", "value"] + if any($taken[].segments[]; length == 3) then ["rate"] else [] end) as $columns
| ($columns | join(",")), ($taken[] | .name as $name | .segments[] | ($head | map($name)) + .
  | . + [range(length; $columns | length) | ""] | map(tostring) | join(","))
