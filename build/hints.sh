# Prints hints below an error at a terminal: an explanation of the error, and how to correct it. Sourced by ./listset. Uses
# the functions kind_of_file and names_of_commands of ./listset, and the variables `engine` (the command line of the
# program) and `called` (the name that the user called the script by).

# Sets `values` to the arguments of a command that are not options, and `texts` to the values of its options.
read_words() {
  local name
  values=()
  declare -gA texts=()
  shift
  while [ $# -gt 0 ]; do
    case "$1" in
      --lacks | --from | --to | --width | --only)
        texts[${1#--}]=${2-}
        [ $# -lt 2 ] || shift ;;
      --lacks=* | --from=* | --to=* | --width=* | --only=*)
        name=${1%%=*}
        texts[${name#--}]=${1#*=} ;;
      --) shift && values+=("$@") && return ;;
      -?*) ;;
      *) values+=("$1") ;;
    esac
    shift
  done
}

# Prints the name of the file that a command reads. Prints nothing if the command reads standard input or no file.
print_file() {
  local file=""
  case "$1" in
    gen | run | example | faults) ;;
    serve) file=${values[5]-} ;;
    *) file=${values[0]-} ;;
  esac
  [ "$file" = - ] || printf '%s' "$file"
}

# Prints a file name as it should be typed on a command line.
quoted() {
  local name=$1 LC_ALL=C # (a file name is a sequence of bytes)
  case "$name" in -*) name=./$name ;; esac
  case "$name" in
    "" | *[!A-Za-z0-9_./+:=@%,$'\200'-$'\377'-]*) printf "'%s'" "${name//\'/\'\\\'\'}" ;;
    *) printf '%s' "$name" ;;
  esac
}

# Prints the output of the command explain for a file.
explain_file() {
  local name=$1
  [ "$name" != - ] || name=./-
  "${engine[@]}" explain -- "$name" 2>/dev/null || true
}

# Prints the commands that read a file. $2 is the first line of the explanation of the file, and contains the file's kind.
# Prints nothing if the file has no kind that is known here.
print_use() {
  local name
  name=$(quoted "$1")
  case "$2" in
    "$name is a schedule"*) echo "For its report: listset replay $name; for its picture: listset show $name" ;;
    "$name is a draft"*) echo "For its schedule: listset draft $name" ;;
    "$name is a report"*) echo "To check its order: listset check $name; for its picture: listset show $name" ;;
    "$name has recorded calls"*) echo "For the verdict: listset judge $name" ;;
    "$name is a trace"*) echo "No command reads a trace" ;;
    "$name is a course"*) echo "No command reads a course: paste it into page/index.html, under Solve" ;;
    "$name has keys for serve"*) echo "A server opens with these keys: listset serve KIND SEATS QUOTA PORT SESSIONS $name" ;;
  esac
}

# Prints the kind of text that a command reads.
read_by() {
  case "$1" in
    "show --lacks") echo "a schedule" ;;
    serve) echo "lines 'key K'" ;;
    *) kind_of_file "$1" ;;
  esac
}

# Prints the first line that a file for a command must have.
title_of() {
  case "$(read_by "$1")" in
    "a schedule") echo "'listset-schedule 1' (or 2)" ;;
    "a report") echo "'listset-report 1' (or 2)" ;;
    "a draft") echo "'listset-draft 2'" ;;
    "recorded calls") echo "'listset-calls 1'" ;;
    "lines 'key K'") echo "'key K'" ;;
    *) echo "'listset-schedule 1' or 'listset-report 1' (or 2)" ;;
  esac
}

# Prints one line about an error of the command $1 in a file: usually the last line that the command `explain` prints, with
# the error and how to correct it. $3 and $4 are the cause of the error and its line number. If the cause is Header and the
# command does not read files of this kind, prints both kinds and the commands that read the file. If the kind of the file is
# unknown, prints the first line that a file for the command must have.
explain_in_a_line() {
  local command=$1 file=$2 cause=${3-} number=${4-} said first last name use
  said=$(explain_file "$file")
  first=${said%%$'\n'*}
  last=$(tail -n 1 <<<"$said")
  name=$(quoted "$file")
  use=$(print_use "$file" "$first")
  [[ "$first" != *", and line 1 has an error, Header:" ]] || cause=Header
  [ "$command" != show ] || [ -z "${texts[lacks]-}" ] || command="show --lacks"
  if [ "$cause" = Header ] && [ "$first" = "$name has no bytes." ] && [ "$file" -ef "/proc/$$/fd/1" ]; then
    echo "$name has no bytes: the output goes to the file that is read, so the shell emptied it. Write the output to another file"
  elif [ "$cause" = Header ] && [ "$first" = "$name has no bytes." ]; then
    echo "$name has no bytes, and $command reads $(read_by "$command"): line 1 must be $(title_of "$command"). If a command wrote the file, look at what that command printed for an error"
  elif [ "$cause" = Header ] && [ -n "$use" ]; then
    echo "${first%%, and *}, and $command reads $(read_by "$command"). $use"
  elif [ "$cause" = Header ] && [[ "$last" == "Line 1 must be one of"* ]]; then
    echo "$name is no text of listset. $command reads $(read_by "$command"): line 1 must be $(title_of "$command"), and docs/TEXTS.md has the lines below it"
  elif [ -n "$number" ] && [ "$cause" != Header ] && [[ "$first" != *", and line $number has an error, $cause:" ]]; then
    explain_other "$command" "$file" "$cause"
  elif [[ "$first" == *" has more than 67108864 bytes." ]]; then
    echo "$first $last"
  else
    echo "$last"
  fi
}

# Explains an error that the command `explain` does not find in the file. With --lacks, the reason is that calls on a
# broken list (a list without one of its checks) can execute steps that no call on the intact list executes.
explain_other() {
  if [ -n "${texts[lacks]-}" ]; then
    echo "On the list that lacks ${texts[lacks]}, calls can take other steps than on the whole list. For each step above this line: listset trace --lacks ${texts[lacks]} $(quoted "$2"); for the cause: listset faults $3"
  else
    echo "listset faults $3 explains this error"
  fi
}

# Succeeds if the last line of a file has no newline and is longer than a line of a recording can be.
is_end_long() {
  [ -n "$(tail -c 1 -- "$1" | tr -d '\0')" ] && [ "$(tail -c 129 -- "$1" | wc -l)" = 0 ]
}

# Explains a refused line of a recording if the recording is too long for the command `explain`. Prints the line and the
# cause.
explain_long() {
  local file=$1 number=$2 cause=$3 line why
  line=$(sed -n "$number{p;q}" "$file" | cut -c1-100 | cat -v)
  why=$("${engine[@]}" faults "$cause" | sed -n '/in recorded calls/,/^$/p' | sed '1d; s/^ *//' | tr '\n' ' ')
  why=${why#"$cause"}
  why=$(sed 's/^ *//; s/ *$//' <<<"${why//FILE/$(quoted "$file")}")
  if [ "$cause" = NotEnded ] && is_end_long "$file"; then
    why="The line has more than the 128 bytes that a line can have, and no newline at its end. Write the title and each call in a line of its own, which ends with LF. If another sign is between the calls, such as a semicolon: tr ';' '\n' < $(quoted "$file") > $(quoted "$file").new"
  fi
  [ -z "$line" ] || why="Line $number is '$line'. $why"
  echo "$why"
}

# Prints the names of all broken lists, each followed by the intact list in parentheses, as in the help of --lacks.
print_broken_lists() {
  "${engine[@]}" help replay 2>/dev/null | sed -n 's/^ *--lacks <NAME> [^:]*: //p'
}

# Explains an option --lacks whose check belongs to a different list than the schedule's.
explain_lacks() {
  local lacks=${texts[lacks]} file=$1 list="" names it of="" fitting=""
  names=$(print_broken_lists)
  [ ! -f "$file" ] || list=$(sed -n '2{s/^list //p;q}' "$file")
  while read -r it; do
    [ "${it%% *}" != "$lacks" ] || of=${it##* }
    [ "${it##* }" != "($list)" ] || fitting+="${fitting:+, }${it%% *}"
  done <<<"${names//, /$'\n'}"
  of=${of//[()]/}
  if [ -n "$fitting" ]; then
    echo "$lacks is a check of the $of list, and line 2 is 'list $list'. The checks of the $list list: $fitting"
  elif [ -f "$file" ] && [ -n "$list" ]; then
    explain_in_a_line replay "$file"
  else
    echo "$lacks is a check of the $of list, and line 2 is of another list. All checks: $names"
  fi
}

# Explains a refused line in a command's input.
explain_line() {
  local command=$1 number=$2 cause=$3 file
  file=$(print_file "$command")
  if [ "$cause" = Kind ] && [ -n "${texts[lacks]-}" ]; then
    explain_lacks "$file"
  elif [ ! -f "$file" ] && [ "$cause" = Header ]; then
    echo "$command reads $(read_by "$command"): line 1 must be $(title_of "$command"), and the input is empty or closed, or begins otherwise. For a text in a file, listset explain FILE says what is wrong"
  elif [ ! -f "$file" ]; then
    echo "listset faults $cause explains this error; for a text in a file, listset explain FILE says what is wrong"
  elif [ "$(read_by "$command")" = "recorded calls" ] && [ "$(stat -c %s -- "$file")" -gt 67108864 ]; then
    explain_long "$file" "$number" "$cause"
  elif [ "$command $cause" = "serve Line" ]; then
    explain_in_a_line serve "$file" Header "$number"
  else
    explain_in_a_line "$command" "$file" "$cause" "$number"
  fi
}

# Explains why a recording without lines of final keys is refused, if the final keys are the reason.
explain_refusal() {
  local file=${values[0]-} verdict
  [ -f "$file" ] && [ "$(stat -c %s -- "$file")" -le 67108864 ] || return 0
  ! grep -q '^key ' "$file" && [ "$(tail -n 1 "$file")" = end ] || return 0
  verdict=$("${engine[@]}" judge --brief -- "$file" 2>/dev/null) || true
  [[ "$verdict" == *" and leaves it as it was left"* ]] || return 0
  file=$(quoted "$file")
  echo "$file has no 'key' lines, so it says that the set is empty at the end. If its final keys are not known, write 'cut' instead of 'end': sed -i '\$s/^end\$/cut/' $file"
}

# Prints a hint about the name of a missing file: `help`, an example, a URL, a name that begins with ~, or a name that
# lacks only the extension of an existing file. Prints nothing for other names.
print_meant() {
  local command=$1 name=$2 found
  found=$(compgen -G "$(printf '%q' "$name").*" 2>/dev/null) || true
  if [ "$name" = help ]; then
    echo "To read about this command: listset help $command"
  elif [[ "$name" == "~"* ]]; then
    echo "A shell replaces ~ by your folder only outside of quotes"
  elif [[ "$name" == *://* ]]; then
    echo "listset reads files, no addresses. To read it from a pipe: curl -s $(quoted "$name") | listset $command"
  elif [ -f "$found" ]; then
    echo "Perhaps you mean $(quoted "$found")"
  elif [[ "$command" =~ ^(replay|show|trace)$ ]] && is_example "$name"; then
    echo "If you mean the example: listset example $name | listset $command"
  fi
}

explain_unread() {
  local file
  file=$(print_file "$1")
  if [ -n "$file" ]; then
    explain_in_a_line "$1" "$file"
    [ -e "$file" ] || print_meant "$1" "$file"
  elif [ "$1" != serve ] && [ "${values[0]-none}" = "" ]; then
    echo "The name of the file is empty. Perhaps a variable of the shell has no value"
  elif [ -n "$is_input_closed" ]; then
    echo "Standard input is closed. Name a file: listset $1 FILE"
  else
    echo "Standard input could not be read. Name a file: listset $1 FILE"
  fi
}

explain_port() {
  local port=${values[3]-} first=1024
  read -r first </proc/sys/net/ipv4/ip_unprivileged_port_start || true
  if [ "$port" = 0 ]; then
    echo "The system gave the server no port on 127.0.0.1. To see whether the loopback is up: ip address show lo"
  elif [ "$port" -lt "$first" ] && [ "$(id -u)" != 0 ]; then
    echo "Ports below $first are for root. Use a PORT from $first to 65535, or 0 to let the system choose one"
  elif grep -q ":$(printf '%04X' "$port") [0-9A-F]*:0000 0A " /proc/net/tcp /proc/net/tcp6; then
    echo "Port $port is in use, perhaps by another server. Use another PORT, or 0 to let the system choose one"
  else
    echo "The system refused port $port. Use another PORT, or 0 to let the system choose one"
  fi 2>/dev/null
}

# Explains why the output of a command could not be written: standard output is closed, is a pipe that nothing reads any
# more, or is a file or device.
explain_unwritten() {
  local to
  to=$(readlink "/proc/$$/fd/1") || to=""
  if [ -n "$is_output_closed" ]; then
    echo "Standard output is closed. To see the output, leave out '>&-'; to keep it: listset $1 .. > FILE"
  elif [ -p "/proc/$$/fd/1" ]; then
    echo "The command after the pipe ended before it had read all of the output, as head does. If it should read all, look there for an error"
  elif [ -e "$to" ]; then
    echo "The output could not be written to $(quoted "$to"): the device is full, or failed. To see how full it is: df -h $(quoted "$to")"
  else
    echo "The output could not be written. Write it to a file: listset $1 .. > FILE"
  fi
}

# Explains how to shorten a standard input that is too long for a command. (A report cannot be cut: a part of it is not
# a report.)
print_shortening() {
  local text=schedule
  [ "$1" != draft ] || text=draft
  case "$1" in
    check) echo "For a report of fewer calls, shorten its schedule: .. | head -n 1000 | listset replay | listset check" ;;
    serve) echo "A set opens with at most 1048576 keys. To keep the first ones: .. | grep -m 1048576 '^key' | listset serve .." ;;
    *) echo "To let $1 read the first 1000 lines of a $text alone: .. | head -n 1000 | listset $1" ;;
  esac
}

# Explains an input that is longer than the command accepts.
explain_too_long() {
  local command=$1 file
  file=$(print_file "$command")
  if [ -n "$file" ]; then
    explain_in_a_line "$command" "$file"
  elif [ "$(read_by "$command")" = "recorded calls" ]; then
    echo "Only a recording can have more than 67108864 bytes: line 1 must be 'listset-calls 1', and no line has more than 128 bytes"
  else
    echo "Standard input has more than 67108864 bytes, and only recorded calls can have more. $(print_shortening "$command")"
  fi
}

# Prints the last moment that show can draw for the command's file. Prints nothing if the command reads standard input.
print_last_moment() {
  local file picture lacks=()
  file=$(print_file show)
  [ -f "$file" ] || return 0
  [ -z "${texts[lacks]-}" ] || lacks=(--lacks "${texts[lacks]}")
  picture=$("${engine[@]}" show "${lacks[@]}" -- "$file" 2>/dev/null) || true
  sed -n 's/^moments .* of \([0-9]*\);.*/\1/p; s/^moment .* \([0-9]*\)$/\1/p' <<<"$picture" | head -n 1
}

# Prints a period and a sentence about a misspelled value $2. If $1 is a range of numbers, the sentence states how
# numbers are spelled. Otherwise it suggests the name of a list that differs only by case, by punctuation or by "list".
# Prints nothing if the number is spelled correctly, or if no list has such a name. (page/listset.js does the same.)
explain_spelling() {
  local range=$1 value=$2 it plain
  plain=$(tr -cd a-z <<<"${value,,}")
  if [[ "$range" =~ [0-9]\ to\ |:\ the\ first ]]; then
    [[ "$value" =~ ^(0|[1-9][0-9]*)$ ]] || echo ". A number has decimal digits alone, and no leading zero"
  else
    for it in coarse fine optimistic lazy lock-free; do
      [ "${plain%list}" != "${it/-/}" ] || echo ". Perhaps you mean $it"
    done
  fi
}

# Explains a wrong option of show, using the command's help text.
explain_option() {
  local name=$1 range=$2 value last
  value=${texts[${name,,}]}
  range+=$(explain_spelling "$range" "$value")
  case "$name" in
    FROM) last=$(print_last_moment)
      [ -z "$last" ] || range+="; of this file, 1 to $last" ;;
    TO) range+="; here, ${texts[from]-1} or a later one" ;;
  esac
  echo "$name '$value' is wrong. $range"
}

# Succeeds if an example has this name.
is_example() {
  [[ $'\n'$("${engine[@]}" example 2>/dev/null) == *$'\n'"$1 "* ]]
}

# Explains a missing or wrong name of an example.
explain_example() {
  local name=${1##*/} alike
  if [ -z "$1" ]; then
    echo "NAME is missing. listset example lists the names. Some have a broken report: $(print_broken)"
    return
  fi
  name=${name%.schedule}
  alike=$("${engine[@]}" example 2>/dev/null | sed 's/ .*//' | grep -i -F -e "${name// /-}" | tr '\n' ' ') || alike=""
  alike=${alike% }
  if [ "$name" != "$1" ] && is_example "$name"; then
    echo "The name of this example is $name: listset example $name"
  elif [ -n "$alike" ]; then
    echo "There is no example '$1'. Perhaps you mean ${alike// /, }"
  else
    echo "There is no example '$1'. listset example lists the names"
  fi
}

# Explains a wrong key of judge --only.
explain_key() {
  local range="It is a number from 0 to 4294967295"
  if [[ "$1" =~ ^(0|[1-9][0-9]{0,9})$ ]] && [ "$1" -le 4294967295 ]; then
    echo "The recording has no call of key $1. To see its keys: grep '^call' $(quoted "${values[0]-FILE}") | cut -d ' ' -f 4 | sort -n -u"
  else
    echo "KEY '$1' is wrong. $range$(explain_spelling "$range" "$1")"
  fi
}

# Explains a missing or wrong argument, using the command's help text.
explain_value() {
  local command=$1 name=$2 help usage range value words at=0
  help=$("${engine[@]}" help "$command" 2>/dev/null)
  usage=$(sed -n 's/^Usage: //p' <<<"$help")
  read -ra words <<<"$usage"
  case "$command $name" in
    "example NAME") explain_example "${values[0]-}" && return ;;
    "faults CAUSE") echo "There is no cause '${values[0]-}'. listset faults lists all causes" && return ;;
    "judge KEY") explain_key "${texts[only]-}" && return ;;
    *\ FROM | *\ TO | *\ WIDTH) explain_option "$name" "$(sed -n "s/^ *--${name,,} <[MN]> *//p" <<<"$help")" && return ;;
  esac
  range=$(sed -n "s/^ *\[$name\] *//p" <<<"$help")
  for ((at = 2; at < ${#words[@]}; at++)); do
    case "${words[at]}" in "$name" | "[$name]") break ;; esac
  done
  value=${values[at - 2]-}
  if [ $((at - 2)) -ge ${#values[@]} ]; then
    echo "$name is missing. $range. Usage: $usage"
  elif [ -z "$value" ]; then
    echo "$name is empty. Perhaps a variable of the shell has no value. $range. Usage: $usage"
  else
    echo "$name '$value' is wrong. $range$(explain_spelling "$range" "$value"). Usage: $usage"
  fi
}

# Explains an option without a value, using the command's help text.
explain_no_value() {
  local option about
  option=$(sed -n "1s/.*required for '\(--[a-z]*\).*/\1/p" <<<"$2")
  about=$("${engine[@]}" help "$1" 2>/dev/null | sed -n "s/^ *$option <\([A-Z]*\)> *\(.*\)/\1: \2/p")
  echo "Write the value after $option. ${about:-listset help $1 says what it can be}"
}

# Prints the number of arguments before argument $1, not counting options.
count_before() {
  local it at=0
  for it in "${given[@]:1}"; do
    [ "$it" != "$1" ] || break
    case "$it" in -?*) ;; *) at=$((at + 1)) ;; esac
  done
  echo "$at"
}

# Explains a negative number: prints the range of the option or argument.
explain_negative() {
  local command=$1 word=$2 help words name at
  for ((at = 1; at < ${#given[@]}; at++)); do
    case "${given[at]} ${given[at - 1]}" in
      "$word"*\ --only | "$word"*\ --from | "$word"*\ --to | "$word"*\ --width)
        name=${given[at - 1]#--}
        texts[$name]=${given[at]}
        name=${name/only/key}
        explain_value "$command" "${name^^}" && return ;;
    esac
  done
  help=$("${engine[@]}" help "$command" 2>/dev/null)
  read -ra words <<<"$(sed -n 's/^Usage: //p' <<<"$help")"
  name=${words[$(($(count_before "$word") + 2))]-}
  name=${name#[}
  name=${name%]}
  echo "$name '$word' is wrong. $(sed -n "s/^ *\[$name\] *//p" <<<"$help")"
}

# Explains an argument that begins with a hyphen and is not an option of any command.
explain_hyphen() {
  local command=$1 word=$2 usage name file
  for name in svg from to width brief only chain broken lacks; do
    for file in "${given[@]}"; do
      case "$file" in "-$name" | "-$name="*) echo "An option has two hyphens: --$name" && return ;; esac
    done
  done
  for file in "${given[@]}"; do
    [[ "$file" != "$word"* ]] || [ ! -e "./$file" ] || { echo "If you mean the file: listset $command $(quoted "$file")" && return; }
  done
  usage=$("${engine[@]}" help "$command" 2>/dev/null | sed -n 's/^Usage: //p')
  name=${word#--}
  name=${name^^}
  if [[ "$word" =~ ^(-o|--out|--output)$ ]]; then
    echo "The result goes to standard output. To write it to a file: listset $command .. > FILE"
  elif "${engine[@]}" help "${word#--}" >/dev/null 2>&1; then
    echo "A command has no hyphens: listset ${word#--}"
  elif [[ " ${usage//[][]/ } " == *" $name "* ]]; then
    echo "$name is known by its place, without $word. Usage: $usage"
  elif [[ "$command" == -* ]]; then
    echo "listset --help lists the commands"
  else
    echo "listset help $command lists its arguments and options"
  fi
}

# Explains a superfluous argument, that is, an argument after the last argument of the command.
explain_further() {
  local command=$1 word=$2
  case "$command" in
    gen | run | serve) echo "$command has fewer arguments: leave out '$word'" ;;
    example) echo "example prints one schedule. Run the command once for each" ;;
    faults) echo "faults explains one cause, the last word of an error line. Run the command once for each" ;;
    *)
      if [ -f "${values[*]}" ]; then
        echo "If you mean one file, quote its name: listset $command $(quoted "${values[*]}")"
      else
        echo "$command reads one file. Run the command once for each"
      fi ;;
  esac
}

# Explains an argument that the command does not accept.
explain_word() {
  local command=$1 word=$2
  case "$word" in
    -[0-9]*) explain_negative "$command" "$word" ;;
    --chain) echo "--chain is an option of trace" ;;
    --svg | --from | --to | --width) echo "$word is an option of show" ;;
    --broken) echo "--broken is an option of example" ;;
    --brief | --only) echo "$word is an option of judge" ;;
    --lacks) echo "--lacks is an option of replay, show and trace" ;;
    -v | --v | --ver)
      if [ "$command" = "$word" ]; then
        echo "listset --version prints the version"
      else
        echo "listset help $command lists its arguments and options"
      fi ;;
    -*) explain_hyphen "$command" "$word" ;;
    *) explain_further "$command" "$word" ;;
  esac
}

explain_command() {
  local first use
  if [ -f "$1" ]; then
    first=$(explain_file "$1")
    first=${first%%$'\n'*}
    use=$(print_use "$1" "$first")
    [ -n "$use" ] || use="listset explain $(quoted "$1") says what it has"
    echo "If you mean the file: ${first%%, and *}. $use"
  elif [ -z "$1" ]; then
    echo "The command is empty. Perhaps a variable of the shell has no value. listset --help lists the commands"
  elif [ "$1" = - ]; then
    echo "A command comes first, such as: listset replay -"
  elif [ "$1" = version ]; then
    echo "listset --version prints the version"
  elif [ "$1" != "${1,,}" ] && "${engine[@]}" help "${1,,}" >/dev/null 2>&1; then
    echo "Commands are in lower case: listset ${1,,}"
  elif [ "$1" = prove ] || [ "$1" = unproved ]; then
    echo "If you mean the option of the script: ./listset --$1"
  else
    echo "listset --help lists the commands"
  fi
}

# Prints the names of the examples that have a report of a broken list (a list without one of its checks).
print_broken() {
  local it names=""
  for it in "$top"/examples/schedules/*.broken.report; do
    [ -e "$it" ] || return 0
    it=${it##*/}
    names+="${names:+, }${it%.broken.report}"
  done
  echo "$names"
}

# Prints a text about listset's commands. Each command begins with the name that the user called the script by.
print_as_called() {
  local text=$1 it
  [ "$called" = listset ] || for it in $(names_of_commands) --help --version; do
    text=${text//"listset $it"/"$called $it"}
  done
  [ -z "$text" ] || printf '%s\n' "$text"
}

# Prints a hint about an error of the program with these arguments, or about a refusal. (A refusal prints nothing on
# standard error.)
explain_error() {
  local said=$1 word number
  shift
  given=("$@")
  read_words "$@"
  word=$(sed -n "1s/^error: .*argument '\([^' ]*\).*/\1/p" <<<"$said")
  case "$said" in
    "") explain_refusal ;;
    "listset: line "*)
      number=${said#listset: line }
      explain_line "$1" "${number%%:*}" "${said##*: }" ;;
    "listset: cannot read") explain_unread "$1" ;;
    "listset: too long") explain_too_long "$1" ;;
    "listset: cannot write") explain_unwritten "$1" ;;
    "listset: cannot listen") explain_port ;;
    "listset: out of memory") echo "The system gave no more memory: free -h; ulimit -v" ;;
    "listset: an argument is not UTF-8") echo "A file with such a name can be read from standard input: listset $1 < FILE" ;;
    "listset: work: "* | "listset: serve: "*) echo "listset faults ${said##*: } explains this error" ;;
    "listset: bad NAME: this example"*) echo "These examples have one: $(print_broken)" ;;
    "listset: bad NAME: "*) echo "NAME '${texts[lacks]-}' is wrong. --lacks takes one of $(print_broken_lists)" ;;
    "listset: bad "*) explain_value "$1" "${said#listset: bad }" ;;
    "error: unrecognized subcommand"*"tip:"*) [ ! -f "$1" ] || explain_command "$1" ;;
    "error: unrecognized subcommand"*) explain_command "$1" ;;
    "error: a value is required for"*) explain_no_value "$1" "$said" ;;
    "error: unexpected value"*) echo "$(sed -n "1s/.* for '\([^']*\)' found.*/\1/p" <<<"$said") has no value: leave out the = and what comes after it" ;;
    "error: the argument"*"multiple times"*) echo "Keep one of them: the command takes it once" ;;
    *"tip: a similar argument exists"*) ;;
    "error: unexpected argument"*) explain_word "$1" "$word" ;;
  esac
}

# Prints an error of the program, except clap's tip to write '--' before an argument: here this tip does not help.
print_error() {
  sed "/^  tip: to pass '-/,/^\$/d" <<<"$1"
}
