# Turns a text of flow shops with pairs of machine and time into a benchmark text.
#
#     awk -f examples/from_pairs.awk instances.txt >shops.txt
#
# It reads the layout of Vallada, Ruiz and Framinan's files, and that of OR-Library's flowshop1.txt. Lines of words may
# stand first. A line has the numbers of jobs and machines; then a line for each job has, for each machine from 0 on,
# its number and the time. Another shop may follow after a line of plus signs; `instance NAME` in the lines before the
# sizes is its name. Standard error says what was read, or which line is at fault.

# The name of the text, for what is said on standard error.
function text_name() {
  return FILENAME == "" || FILENAME == "-" ? "instances" : FILENAME
}

# A line as a terminal may show it: a sign that steers it, or turns the direction of writing, stands there as \x1b.
function shown(text,    code, i, part, parts) {
  for (code in control) {
    if (!index(text, control[code])) continue
    parts = split(text, part, control[code])
    text = part[1]
    for (i = 2; i <= parts; i++) text = text code part[i]
  }
  return text
}

# Those signs: of ASCII, of the next 32, where some kinds of awk see two bytes, and of the direction.
BEGIN {
  for (i = 1; i < 32; i++) control[sprintf("\\x%02x", i)] = sprintf("%c", i)
  control["\\x7f"] = "\177"
  for (i = 128; i < 160; i++)
    control[sprintf("\\x%02x", i)] = length("\302\200") == 1 ? sprintf("%c", i) : sprintf("%c%c", 194, i)
  i = split("2028 \342\200\250 2029 \342\200\251 202a \342\200\252 202b \342\200\253 202c \342\200\254" \
    " 202d \342\200\255 202e \342\200\256 2066 \342\201\246 2067 \342\201\247 2068 \342\201\250" \
    " 2069 \342\201\251", part, " ")
  for (; i > 1; i -= 2) control["\\u" part[i - 1]] = part[i]
}

# Says what is wrong, at this line if one was read, and ends.
function stop(why) {
  print shown(text_name() ": " (NR ? "line " FNR ": " : "") why) >"/dev/stderr"
  stopped = 1
  exit 1
}

# Stops at a word NAME=VALUE: this script has none, and awk itself takes any.
function test_words(    i, name) {
  for (i = 1; i < ARGC; i++) {
    name = ARGV[i]
    if (name !~ /^[A-Za-z_][A-Za-z_0-9]*=/) continue
    sub(/=.*/, "", name)
    stop("there is no word " name "=: this script has none")
  }
}

# The number of a text of digits. Some kinds of awk take a text that begins with 0 for an octal number.
function number_of(digits) {
  sub(/^0+/, "", digits)
  return digits + 0
}

# Whether the line has whole numbers alone.
function has_numbers(    i) {
  for (i = 1; i <= NF; i++) if ($i !~ /^[0-9]+$/) return 0
  return 1
}

# Begins a shop of so many jobs and machines.
function begin_shop() {
  shops++
  jobs = number_of($1)
  machines = number_of($2)
  if (jobs < 1 || jobs > 800) stop(jobs " jobs: there may be 1 to 800")
  if (machines < 1 || machines > 26) stop(machines " machines: there may be 1 to 26")
  job = 0
}

# Takes the times of a job.
function read_job(    k, time) {
  job++
  if (NF != 2 * machines) stop(NF " numbers, where job " job " has a machine and a time " machines " times")
  for (k = 1; k <= machines; k++) {
    if (number_of($(2 * k - 1)) != k - 1)
      stop("machine " $(2 * k - 1) ", where machine " k - 1 " should stand: each job visits all machines from 0 on")
    time = number_of($(2 * k))
    if (time > 999999) stop("a time above 999999: " $(2 * k))
    times[k] = times[k] (job > 1 ? " " : "") time
  }
}

# Ends a shop. Its block, and what was read, are written at the end, where nothing is at fault.
function end_shop(    k, label) {
  label = name == "" ? "shop of " text_name() : name
  block[shops] = label "\n" jobs " " machines " 0 0 0\ntimes"
  for (k = 1; k <= machines; k++) {
    block[shops] = block[shops] "\n" times[k]
    times[k] = ""
  }
  said[shops] = "block " shops " is " label ": " jobs (jobs == 1 ? " job, " : " jobs, ") machines \
    (machines == 1 ? " machine" : " machines")
  jobs = 0
  is_over = 1
}

# Takes a line between two shops, or before the first: the sizes, or words, of which some are a name.
function read_head() {
  if (NF == 2 && has_numbers()) {
    begin_shop()
  } else if ($1 == "instance" || after_plus && !is_named) {
    is_named = ($1 == "instance")
    name = $0
    gsub(/^[ \t]+|[ \t]+$/, "", name)
    if (!is_named) name = "instance " name
  }
}

BEGIN { test_words() }

FNR == 1 && NR > 1 { stop("there may be one text") }

{ sub(/\r$/, "") }

!NF { next }

jobs && has_numbers() {
  read_job()
  if (job == jobs) end_shop()
  next
}

jobs { stop("no line of numbers, where job " job + 1 " of " jobs " should stand") }

/^[ \t]*\+\+\+/ {
  after_plus = 1
  if (is_over) name = is_named = is_over = ""
  next
}

is_over { stop("a line after the last job: set-up times, due dates and the like are not modelled") }

{ read_head() }

END {
  if (stopped) exit 1
  if (jobs) stop("the text ends after " job " of " jobs " jobs")
  if (!shops) stop("the text ends before a line with the numbers of jobs and machines")
  for (i = 1; i <= shops; i++) print shown(text_name() ": " said[i]) >"/dev/stderr"
  for (i = 1; i <= shops; i++) print block[i]
}
