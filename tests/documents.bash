# Runs the blocks of code of the documents; tests/run sources this file. The first line of a block says what it is:
#
#   ```console               commands, each after `$ `, and what they print on standard output and standard error
#   ```LANGUAGE file=NAME    a file, written under this name for the commands after it
#   ```LANGUAGE source=PATH  parts of a file of the repository, with an empty line between them
#   ```sh                    commands that take minutes: they are not run
#
# A block of any other kind fails, and one that is indented. The commands of a block run in one shell, which starts in a folder that looks like the
# top of the repository, and `xif` is the program that `rt ci` built. Each document has a folder of its own.

# Prints the commands of a block and what they print.
replay() {
  local line status=0
  set +f
  while IFS= read -r line; do
    [ "${line#\$ }" != "$line" ] || continue
    printf '%s\n' "$line"
    eval "(exit $status); ${line#\$ }" </dev/null 2>&1
    status=$?
  done
}

# The lines of a text, each without the spaces before it.
unindented() {
  local line
  while IFS= read -r line; do
    printf '%s\n' "${line#"${line%%[! ]*}"}"
  done
}

# Whether each part of a block is in a file of the repository.
is_quoted() {
  local line part='' source
  source=$'\n'$(unindented <"$1")$'\n'
  while IFS= read -r line; do
    if [ -n "$line" ]; then
      part+=$line$'\n'
    else
      [[ $source = *$'\n'"$part"* ]] || return 1
      part=''
    fi
  done < <(unindented; echo)
}

# Runs one block: its name, what its first line says after the language, and its text.
run_block() {
  local name=$1 kind=$2 block=$3
  case $kind in
    file=*) printf '%s' "$block" >"${kind#file=}" ;;
    source=*)
      is_quoted "$top/${kind#source=}" <<<"${block%$'\n'}"
      same "$name" 0 "$?"
      ;;
    console) same "$name" "$block." "$(replay <<<"$block"; printf .)" ;;
    sh) ;;
    *) same "$name" 'a block that is run' "$kind" ;;
  esac
}

run_document() {
  local line number=0 start=0 kind='' block=''
  while IFS= read -r line; do
    number=$((number + 1))
    case $start$line in
      '0```'*)
        start=$number kind=${line#'```'} block=''
        kind=${kind##* }
        ;;
      '0    '* | '0 '*'```'*) same "$1, line $number" 'a block between lines of ```' 'an indented one' ;;
      0*) ;;
      "$start"'```')
        run_block "$1, line $start" "$kind" "$block"
        start=0
        ;;
      *) block+=$line$'\n' ;;
    esac
  done <"$top/$1"
  same "$1, blocks that end" 0 "$start"
}

# Runs the documents, each in a new folder.
run_documents() {
  local document folder count=0 PATH=$scratch/bin:$PATH
  mkdir "$scratch/bin" && ln -s "$xif" "$scratch/bin/xif" || return
  for document; do
    count=$((count + 1))
    folder=$scratch/document$count
    mkdir "$folder" && cd "$folder" || return
    ln -s "$top/crates" "$top/crates.txt" .
    cp -R "$top/examples" "$top/tests" "$top/tools" .
    run_document "$document"
  done
}
