# manual.awk -v version=VERSION: turns docs/manual.md into the page of the manual, in the language man of roff. It reads
# headings, paragraphs, numbered lists, tables and blocks of lines, as they stand there.

# A line of a block: nothing is read in it but what roff would.
function literal(text) {
  gsub(/\\/, "\\e", text)
  gsub(/-/, "\\-", text)
  gsub(/[.]\/flowshop/, "flowshop", text)
  return text ~ /^[.']/ ? "\\&" text : text
}

# A text with code, words that are set off, and links, of which the words stay.
function inline(text,    out, at, rest, before) {
  while (match(text, /\[[^]]*\]\([^)]*\)/)) {
    before = substr(text, 1, RSTART - 1)
    rest = substr(text, RSTART + RLENGTH)
    out = substr(text, RSTART + 1, RLENGTH - 1)
    sub(/\]\(.*/, "", out)
    text = before out rest
  }
  out = ""
  while ((at = index(text, "`")) > 0) {
    rest = substr(text, at + 1)
    out = out plain(substr(text, 1, at - 1)) "\\fB" literal(substr(rest, 1, index(rest, "`") - 1)) "\\fR"
    text = substr(rest, index(rest, "`") + 1)
  }
  out = out plain(text)
  return out ~ /^[.']/ ? "\\&" out : out
}

# A text with no code: ** and * set words off.
function plain(text) {
  gsub(/\\/, "\\e", text)
  return set_off(set_off(text, "[*][*][^*]+[*][*]", 2, "B"), "[*][^*]+[*]", 1, "I")
}

# A text in which what fits a pattern, but for so many signs at both ends, has a font.
function set_off(text, pattern, signs, font,    word) {
  while (match(text, pattern)) {
    word = substr(text, RSTART + signs, RLENGTH - 2 * signs)
    text = substr(text, 1, RSTART - 1) "\\f" font word "\\fR" substr(text, RSTART + RLENGTH)
  }
  return text
}

# Writes the paragraph that was read, and ends a block of lines.
function flush() {
  if (text != "") print inline(text)
  text = ""
  if (in_block) print ".fi\n.RE"
  in_block = 0
}

# A row of a table: its first cell, and below it the others, each after the head of its column.
function row(line,    cells, count, at) {
  sub(/^\| */, "", line)
  sub(/ *\|$/, "", line)
  count = split(line, cells, / *\| */)
  if (!in_table) {
    for (at = 1; at <= count; at++) head[at] = cells[at]
    in_table = 1
    return
  }
  if (cells[1] ~ /^-+$/) return
  print ".TP\n" inline(cells[1])
  for (at = 2; at <= count; at++) {
    if (cells[at] != "") print inline(head[at] ": " cells[at]) "\n.br"
  }
}

BEGIN {
  print ".TH FLOWSHOP 1 \"\" \"flowshop " version "\" \"User Commands\""
  print ".nh\n.ad l"
  print ".SH NAME\nflowshop \\- exact permutation flow shops, with certificates"
  print ".SH SYNOPSIS\n\\fBflowshop\\fR \\fICOMMAND\\fR \\fIWORD\\fR..."
  print ".SH DESCRIPTION"
  print "In a permutation flow shop each machine takes the jobs in one common order. flowshop finds an order in which"
  print "the last job leaves the last machine as soon as possible, or bounds of that time, and writes a certificate."
  print "The folder examples and the pages that are named here are in its repository.\n.PP"
}

/^# / { next }

/^##+ / {
  flush()
  is_section = /^## /
  sub(/^#+ /, "")
  print is_section ? ".SH " toupper(inline($0)) : ".SS " inline($0)
  next
}

/^$/ {
  if (in_block) { was_empty = 1; next }
  flush()
  in_table = 0
  next
}

/^    / {
  if (!in_block) { flush(); print ".PP\n.RS 4\n.nf"; in_block = 1 }
  else if (was_empty) print ""
  was_empty = 0
  print literal(substr($0, 5))
  next
}

/^\|/ { flush(); row($0); next }

/^[0-9]+[.] / {
  flush()
  print ".IP " $1 " 4"
  sub(/^[0-9]+[.] /, "")
  text = $0
  next
}

{
  if (in_block) flush()
  was_empty = 0
  if (text == "") print ".PP"
  sub(/^ +/, "")
  text = text (text == "" ? "" : " ") $0
}

END { flush() }
