# Puts the names and the unit of a shop's label lines into a schedule, or a sequence with its makespan, as the program
# prints them. All of it is computed again, and refused where it is not of this shop.
#
#     awk -f examples/with_names.awk shop.txt schedule.csv >named.csv

# Says what is wrong in a file, and ends.
function stop(file, why) {
  why = (file == "" || file == "-" ? "schedule" : file) ": " why
  gsub(/[\001-\037\177]/, "?", why)
  print why >"/dev/stderr"
  stopped = 1
  exit 1
}

# The number of a text of digits. Some kinds of awk take a text that begins with 0 for an octal number.
function number_of(digits) {
  sub(/^0+/, "", digits)
  return digits + 0
}

# Takes a line of the shop: a label, or numbers of the label before.
function read_shop(text,    part, parts, i) {
  parts = split(text, part, " ")
  if (!parts) return
  if (part[1] !~ /^[0-9]/) {
    label[++labels] = text
    return
  }
  for (i = 1; i <= parts; i++) number[labels, ++numbers[labels]] = number_of(part[i])
}

# Finds the sizes of the shop, its names and its unit.
function find_shop(    part) {
  jobs = number[1, 1]
  machines = number[1, 2]
  if (labels != 2 || numbers[1] != 5 || !numbers[2] || numbers[2] != jobs * machines)
    stop(shop, "this is no file of one shop")
  if (split(label[1], job_name, "\t") != jobs + 1 || split(label[2], machine_name, "\t") != machines + 1 || \
    job_name[1] != "jobs" || \
    machine_name[1] !~ /^machines, times in 1\/[1-9][0-9]*, decimal (point|comma), separator (comma|semicolon|tab)$/)
    stop(shop, "there are no names in its label lines")
  split(machine_name[1], part, /[ ,\/]+/)
  scale = part[5]
  decimal = part[7] == "comma" ? "," : "."
  separator = part[9] == "tab" ? "\t" : part[9] == "semicolon" ? ";" : ","
  for (power = 1; power < 1000000 && power % scale; power *= 10) decimals++
  if (power % scale) stop(shop, "there are no names in its label lines")
}

# A field, in quotation marks where a table needs them.
function quoted(text) {
  if (text !~ /[",;]/) return text
  gsub(/"/, "\"\"", text)
  return "\"" text "\""
}

# A time in the unit of the table.
function in_unit(time,    rest, digits) {
  rest = time % scale
  if (!rest) return time / scale
  digits = sprintf("%0" decimals "d", rest * (power / scale))
  sub(/0+$/, "", digits)
  digits = (time - rest) / scale decimal digits
  return decimal == separator ? "\"" digits "\"" : digits
}

# Puts a job behind the jobs before: it starts on machine k at start[k], and ends at end[k]. It must be one of the shop,
# and new.
function place(job, line_number,    k) {
  if (job < 1 || job > jobs || (job in placed)) refuse(line_number)
  placed[job] = 1
  for (k = 1; k <= machines; k++) {
    start[k] = k > 1 && end[k - 1] > end[k] ? end[k - 1] : end[k] + 0
    end[k] = start[k] + number[2, (k - 1) * jobs + job]
  }
}

# Stops at a line of the second file that this shop does not have.
function refuse(line_number) {
  stop(ARGV[ARGC - 1], "line " line_number ": this is not of " shop)
}

# Writes a schedule with names.
function name_schedule(    i, k, job, part) {
  for (i = 2; i <= lines; i++) {
    k = (i - 2) % machines + 1
    if (k == 1) {
      split(line[i], part, ",")
      job = number_of(part[1])
      place(job, i)
    }
    if (line[i] != job "," k "," start[k] "," end[k]) refuse(i)
    line[i] = quoted(job_name[job + 1]) separator quoted(machine_name[k + 1]) separator in_unit(start[k]) \
      separator in_unit(end[k])
  }
  if (lines != jobs * machines + 1) refuse(lines + 1)
  gsub(/,/, separator, line[1])
  for (i = 1; i <= lines; i++) print line[i]
}

# Writes a sequence with names.
function name_sequence(    i, part, parts) {
  parts = split(line[1], part, " ")
  if (parts != jobs + 1) refuse(1)
  for (i = 2; i <= parts; i++) {
    part[i] = number_of(part[i])
    place(part[i], 1)
  }
  if (lines != 2 || line[2] != "makespan " end[machines]) refuse(2)
  print "place" separator "job"
  for (i = 2; i <= parts; i++) print i - 1 separator quoted(job_name[part[i] + 1])
}

FNR == 1 {
  files++
  if (files == 1) {
    shop = FILENAME
    sub(/^\357\273\277/, "")
  }
}

{ sub(/\r$/, "") }

files == 1 { read_shop($0) }

files > 1 { line[++lines] = $0 }

END {
  if (stopped) exit 1
  find_shop()
  if (line[1] == "job,machine,start,end") name_schedule()
  else if (line[1] ~ /^sequence( [0-9]+)+$/) name_sequence()
  else if (line[1] ~ /^<svg/) stop(ARGV[ARGC - 1], "this is a picture: python3 -m flowshop report draws one with names")
  else stop(ARGV[ARGC - 1], "there is no schedule and no sequence, as schedule and check --sequence write them")
}
