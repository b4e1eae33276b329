# Turns a table of whole times into a benchmark text, whose label lines keep the names of jobs and machines.
#
#     awk -f examples/from_csv.awk table.csv >shop.txt
#
# The first row has the names of the machines, and the first column those of the jobs. Commas, semicolons or tabs
# separate the fields, which may stand in quotation marks. All else is refused; the package for Python reads more.

# Says what is wrong, and ends.
function stop(why) {
  why = (FILENAME == "" || FILENAME == "-" ? "table" : FILENAME) ": " why "; python3 -m flowshop shop reads more tables"
  gsub(/[\001-\037\177]/, "?", why)
  print why >"/dev/stderr"
  stopped = 1
  exit 1
}

# A field without its quotation marks and the blanks round it.
function bare(field) {
  gsub(/^[ ]+|[ ]+$/, "", field)
  if (field ~ /^".*"$/) {
    field = substr(field, 2, length(field) - 2)
    gsub(/""/, "\"", field)
  }
  gsub(/\t/, " ", field)
  return field
}

# Splits a line into the fields of a row, and returns how many there are up to the last that is not empty.
function split_row(text,    part, parts, i, field, fields, last, open) {
  parts = split(text, part, separator)
  for (i = 1; i <= parts; i++) {
    field = open ? field separator part[i] : part[i]
    open = field ~ /^ *"/ && gsub(/"/, "\"", field) % 2
    if (open) continue
    cell[++fields] = bare(field)
    if (cell[fields] != "") last = fields
  }
  if (open) stop("line " NR ": a quotation mark is not closed")
  return last + 0
}

# Takes the names of the machines.
function read_head(text,    i, bars) {
  sub(/^\357\273\277/, "", text)
  if (text ~ /^(PK\003\004|\320\317|\377\376|\376\377)/) stop("this is no text in UTF-8")
  separator = text ~ /\t/ ? "\t" : text ~ /;/ ? ";" : ","
  machines = split_row(text) - 1
  if (machines < 1 || machines > 26) stop("line " NR " has the names of " machines " machines, and there are 1 to 26")
  for (i = 1; i <= machines; i++) {
    name[i] = cell[i + 1]
    if (name[i] == "" || name[i] ~ /^[-+0-9.,]+$/ || (name[i] in seen))
      stop("line " NR " has no name of its own for machine " i)
    seen[name[i]] = 1
    test_name(name[i], no_machine)
  }
}

# Stops at a name that says that a row or a column is something else than a job or a machine.
function test_name(given, words,    text, i) {
  text = " " given " "
  for (i = 1; i <= 26; i++)
    gsub(substr("ABCDEFGHIJKLMNOPQRSTUVWXYZ", i, 1), substr("abcdefghijklmnopqrstuvwxyz", i, 1), text)
  gsub(/[][ ().:_\/-]+/, " ", text)
  if (text ~ " (" words ") |^ (" only ") $") stop("line " NR ": \"" given "\" seems to be no job or no machine")
}

# Takes the name and the times of a job.
function read_job(text,    i) {
  if (split_row(text) != machines + 1) stop("line " NR " has other fields than a name and " machines " times")
  if (++jobs > 800) stop("line " NR ": there are more than 800 jobs")
  if (cell[1] == "") stop("line " NR " has no name of a job")
  test_name(cell[1], totals)
  label = label "\t" cell[1]
  for (i = 1; i <= machines; i++) {
    if (cell[i + 1] !~ /^[0-9]+$/ || cell[i + 1] + 0 > 999999)
      stop("line " NR ", " name[i] ": \"" cell[i + 1] "\" is no whole number up to 999999")
    times[i] = times[i] " " sprintf("%d", cell[i + 1])
  }
}

BEGIN {
  for (i = 1; i < ARGC; i++) if (ARGV[i] ~ /^[A-Za-z_]+=/) stop("there is no word " ARGV[i])
  totals = "totals?|sum|summe|gesamt|average"
  only = "max|min|count|job|order|auftrag|name|machine|setup|time|start|end"
  no_machine = "total|sum|summe|gesamt|average|qty|quantity|menge|anzahl|stück|los|lot|batch|due|date|datum|termin|" \
    "wunschtermin|liefertermin|frist|ready|release|earliest|prio|priority|reihenfolge|sequence|note|bemerkung|" \
    "customer|kunde|min|h|s"
}

{ sub(/\r$/, "") }
NR > 1 && FNR == 1 { stop("there may be one table") }

!/[^ \t,;]/ { next }

!machines {
  read_head($0)
  next
}

{ read_job($0) }

END {
  if (stopped) exit 1
  if (!jobs) stop("there are no times")
  print "jobs" label
  print jobs, machines, 0, 0, 0
  line = "machines, times in 1/1, decimal point, separator " \
    (separator == "\t" ? "tab" : separator == ";" ? "semicolon" : "comma")
  for (i = 1; i <= machines; i++) line = line "\t" name[i]
  print line
  for (i = 1; i <= machines; i++) print substr(times[i], 2)
  said = FILENAME ": " jobs (jobs == 1 ? " job, " : " jobs, ") machines (machines == 1 ? " machine" : " machines")
  gsub(/[\001-\037\177]/, "?", said)
  print said >"/dev/stderr"
}
