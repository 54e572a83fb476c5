# Completion of the words of predator, for bash.

# _predator_view WORD: `view`, and behind it what the word says that is shown, or what a file is by its first bytes.
_predator_view() {
    local front=
    if [ -f "$1" ]; then LC_ALL=C read -r -N 6 front 2>/dev/null <"$1"; fi
    case $1:$front in
        run:* | replay:* | native:* | sweep:* | caches:*) echo "view $1" ;;
        *:PRDTRC) echo "view replay" ;;
        *:$'\177ELF\1'*) echo "view run" ;;
        *:$'\177ELF\2'*) echo "view native" ;;
        *) echo view ;;
    esac
}

_predator() {
    local word=${COMP_WORDS[COMP_CWORD]} before=${COMP_WORDS[COMP_CWORD - 1]} options
    # commands.toml: names
    local commands="run replay check split gen convert sweep caches place move filter misses blame explain view campaign native allocators" own="--help --version --prove"
    # (so far)
    if ((COMP_CWORD == 1)); then
        mapfile -t COMPREPLY < <(compgen -W "$commands help $own" -- "$word")
        return
    fi
    local of=${COMP_WORDS[1]} at
    if [ "$of" = help ]; then
        mapfile -t COMPREPLY < <(compgen -W "$commands" -- "$word")
        return
    fi
    # (what follows is the words of a program, or of snakemake)
    for ((at = 2; at < COMP_CWORD; at++)); do
        if [ "${COMP_WORDS[at]}" = -- ]; then
            mapfile -t COMPREPLY < <([ "$of $at" != "native $((COMP_CWORD - 1))" ] || compgen -c -- "$word"; compgen -f -- "$word")
            return
        fi
    done
    if [ "$of" = view ] && ((COMP_CWORD > 2)); then of=$(_predator_view "${COMP_WORDS[2]}"); fi
    case $of in
    # commands.toml: options
        'run') options="--settings --set --schedule --trace --pcs --output" ;;
        'replay') options="--settings --set --size --shift --save --resume" ;;
        'check') options="--settings --set" ;;
        'split') options="" ;;
        'gen') options="" ;;
        'convert') options="" ;;
        'sweep') options="--size" ;;
        'caches') options="--size --sets --ways" ;;
        'place') options="--size" ;;
        'move') options="" ;;
        'filter') options="--near" ;;
        'misses') options="--size --shift" ;;
        'blame') options="--size --shift" ;;
        'explain') options="--settings --set --schedule" ;;
        'view') options="--top --object --words --library --predicted --no-predicted --explain --type --sources --html --live --json --json-version --sarif --against --fail-above --by --patch --perf --program --map" ;;
        'campaign') options="--to --profile --cores --html --check" ;;
        'native') options="--built --quantum --all --marked --child --pcs --no-pcs --filtered --skip --for --windows --paused --most --max-disk --trace --table --report --settings --size --shift --mend --build" ;;
        'allocators') options="--guest --drivers --sizes --threads --seeds --quantum --limit --to --traces --html --json --fail-above --by" ;;
        'view run') options="--top --object --words --library --predicted --no-predicted --explain --type --sources --html --live --json --json-version --sarif --against --fail-above --by --patch --perf --fine --latency --no-fine --settings --set --schedule --trace --pcs --output" ;;
        'view replay') options="--top --object --words --library --predicted --no-predicted --explain --type --sources --html --live --json --json-version --sarif --against --fail-above --by --patch --perf --program --map --settings --set --size --shift --save --resume" ;;
        'view sweep') options="--size --top --html" ;;
        'view caches') options="--shape --top --html" ;;
        'view native') options="--top --object --words --library --predicted --no-predicted --explain --type --sources --html --live --json --json-version --sarif --against --fail-above --by --patch --perf --fine --no-fine --whole --built --quantum --all --marked --child --pcs --no-pcs --filtered --skip --for --windows --most --max-disk --trace --settings --set --size --shift" ;;
    # (so far)
        *) return ;;
    esac
    local known
    case $before in
        --by) known="false-sharing invalidations" ;;
        --json-version) known="1 2" ;;
        --profile) known="slurm ssh $(compgen -d -- "$word")" ;;
        --object | --type | --top | --shape | --explain | --latency | --fail-above | --cores | --quantum | --most) known= ;;
    # commands.toml: values
        --size) known="4 8 16 32 64 128 256 512 1024" ;;
        --shift) known="" ;;
        --near) known="64 128 256 512 1024 2048 4096 8192 16384 32768 65536" ;;
        --sets) known="1 2 4 8 16 32 64 128 256 512 1024" ;;
        --ways) known="" ;;
        --set) known= ;;
    # (so far)
        *)
            if [[ $word == -* ]]; then
                mapfile -t COMPREPLY < <(compgen -W "$options --help" -- "$word")
            elif [ "$of:$COMP_CWORD" = view:2 ]; then
                mapfile -t COMPREPLY < <(compgen -W "run replay native sweep caches" -- "$word"; compgen -f -- "$word")
            else
                mapfile -t COMPREPLY < <(compgen -f -- "$word")
            fi
            return
            ;;
    esac
    mapfile -t COMPREPLY < <(compgen -W "$known" -- "$word")
}
complete -o filenames -F _predator predator
