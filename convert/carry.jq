#!/usr/bin/env -S jq -nrf
# The cells at the end of a run as what the next day's plan begins with: convert/carry.jq [--arg branch NAME] OUTPUT
# takes the last report, of the branch where one is named, of what `./aerie run --detail` prints. What does not go on is named on standard error.

def end_with($status; $lines): $lines | map("carry: \(.)\n") | add // "" | halt_error($status);

[try inputs catch end_with(1; ["the input is no JSON: \(.)"])] as $inputs
| $ARGS.named.branch as $branch
| [$inputs[] | objects | .ok? | objects | select(.profiles and ($branch == null or .branch == $branch))][-1] as $report
| if $report == null then end_with(1; ["the input has no report\($branch | if . then " of the branch \(.)" else "" end)"]) else . end
| if $report.cells == null then end_with(1; ["the report has no cells; it takes what ./aerie run --detail prints"]) else . end
| if $report.outcome != "completed"
  then end_with(1; ["the run came to \($report.reach) of \($report.duration) microseconds: \($report.outcome | tojson)"]) else . end
| ($report.cells[] | "\(.name) = \(if has("value") then .value else .volume end)\(if has("rate") then " rate \(.rate)" else "" end);"),
  end_with(0; [$report | .model | strings | "these are cells of the model \(.), which has to be the first one of the session"]
    + [$report.spans[] | select(.end == null) | "left out: \(.type) \(.path) goes on, since \(.utc)"]
    + [$report.cells[] | select(.conflicted) | "left out: \(.name) is in conflict"]
    + ["daemons begin anew"])
