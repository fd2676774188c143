# Each line of a session's output, and beside it what it means.
function cents(c,  s) { s = c < 0 ? "-" : ""; if (c < 0) c = -c; return sprintf("%s%d.%02d EUR", s, c / 100, c % 100) }
BEGIN {
  level["B"] = "the book"; level["M"] = "the whole form"; level["S"] = "one series"; level["I"] = "one quarter hour"
  why[1] = "it is shorter than its header"
  why[2] = "a size in its header is not allowed here"
  why[3] = "its length is not what its sizes give"
  why[4] = "this call does not fit the phase, or the year is over"
  why[5] = "the sheet or the result rows do not fit the book"
  why[6] = "there is no such group"
  why[7] = "it is not for the current day"
  why[8] = "its version is not the next one"
  why[9] = "a head names no series that the group may send"
  why[10] = "a head stands twice"
  why[11] = "a series that has to be there is left out"
  why[12] = "a value or a price is out of range"
  why[13] = "a group without metering points forecasts more than 0"
  why[14] = "trades out to a group and in from it are both above 0"
  why[15] = "after the cut-off the open position moves farther out beyond its limit"
  why[16] = "a group row is unlawful"
}
function say(text) { printf "%-28s %s\n", $0, text }
$1 == "STOP" { say("the session ends here: a frame was cut short, too long, out of turn, of no known letter, an advance with a body, or opens a book for 9 to 16 groups"); next }
$1 == "REFUSED" {
  reason = why[$3]
  if ($3 == 17) reason = $4 > 0 ? "a tariff row is unlawful" : "the rule form is unlawful"
  text = "refused, nothing has changed: " reason " (about " level[$2]
  if ($4 > 0) text = text ", series " $4
  if ($5 > 0) text = text ", quarter hour " $5
  say(text ")"); next
}
$1 == "OK" && NF == 1 { say("accepted"); next }
$1 == "OK" && $2 == 0 { say("message accepted; no quarter hour has a stated open position beyond the limit"); next }
$1 == "OK" { say("message accepted; " $2 " quarter hours have a stated open position beyond the limit, the first is " $3); next }
NF == 6 {
  text = "day " $1 ", group " $2 ": " ($3 ? "marked" : "not marked") ", stage " $4 ", penalty " cents($5) ", balance energy " cents($6)
  say(text ($6 < 0 ? " (a credit)" : "")); next
}
{ say("") }
