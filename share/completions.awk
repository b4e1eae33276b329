# completions.awk -v shell=NAME: writes the completion of flowshop for bash, zsh or fish, from the table of commands. A
# word that is no command and no option is completed as the name of a file.

/^#/ || NF == 0 { next }

{
  commands = commands " " $1
  options = ""
  for (field = 2; field <= NF; field++) {
    if ($field !~ /^--/) continue
    options = options " " $field
    takes = $(field + 1)
    if (field == NF || takes ~ /^--/) takes = ""
    if (takes == "WORD" && !is_noted[$field]++) taking = taking (taking == "" ? "" : "|") $field
    if (takes ~ /[|]/ && !is_noted[$field]++) note_choice($field, takes)
    if (shell == "fish") fish($1, substr($field, 3), takes)
  }
  arms = arms "    " $1 ") options='" substr(options, 2) "' ;;\n"
}

# Notes an option that takes one of some words.
function note_choice(option, takes) {
  gsub(/[|]/, " ", takes)
  of_bash = of_bash "    " option ") COMPREPLY=($(compgen -W '" takes "' -- \"$word\")); return ;;\n"
  of_zsh = of_zsh "  " option ") compadd -- " takes "; return ;;\n"
}

# Notes an option of a command for fish.
function fish(command, option, takes) {
  lines = lines "complete -c flowshop -n '__fish_seen_subcommand_from " command "' -l " option
  if (takes == "FILE") lines = lines " -r -F"
  else if (takes == "WORD") lines = lines " -x"
  else if (takes != "") { gsub(/[|]/, " ", takes); lines = lines " -x -a '" takes "'" }
  lines = lines "\n"
}

END {
  commands = substr(commands, 2)
  if (shell == "bash") {
    print "# The completion of flowshop for bash."
    print "_flowshop() {"
    print "  local word=${COMP_WORDS[COMP_CWORD]} options='--help'"
    print "  COMPREPLY=()"
    print "  if [ \"$COMP_CWORD\" = 1 ]; then"
    print "    COMPREPLY=($(compgen -W '" commands " help --help --version' -- \"$word\"))"
    print "    return"
    print "  fi"
    print "  case ${COMP_WORDS[COMP_CWORD - 1]} in"
    printf "%s", of_bash
    print "  esac"
    print "  case ${COMP_WORDS[1]} in"
    printf "%s", arms
    print "  esac"
    print "  case $word in"
    print "    -*) COMPREPLY=($(compgen -W \"$options --help\" -- \"$word\")) ;;"
    print "  esac"
    print "}"
    print "complete -o default -F _flowshop flowshop"
  } else if (shell == "zsh") {
    print "#compdef flowshop"
    print "# The completion of flowshop for zsh."
    print "local options=''"
    print "if (( CURRENT == 2 )); then"
    print "  compadd -- " commands " help --help --version"
    print "  return"
    print "fi"
    print "case $words[CURRENT-1] in"
    printf "%s", of_zsh
    print "  " taking ") return ;;"
    print "esac"
    print "case $words[2] in"
    gsub(/    /, "  ", arms)
    printf "%s", arms
    print "esac"
    print "if [[ $PREFIX == -* ]]; then"
    print "  compadd -- ${=options} --help"
    print "else"
    print "  _files"
    print "fi"
  } else if (shell == "fish") {
    print "# The completion of flowshop for fish."
    print "complete -c flowshop -l help"
    print "complete -c flowshop -n __fish_use_subcommand -l version"
    print "complete -c flowshop -n __fish_use_subcommand -f -a '" commands " help'"
    printf "%s", lines
  }
}
