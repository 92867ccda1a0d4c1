# A repair as a project: from a file as people have it to listings that move, pages to look at, and a new file.
#
#   make -f repair.mk IMAGE=monitor.bin START=0xFC00    makes in this folder:
#       monitor.info          the information file, yours to edit. It is made once, by open65; what that guesses is printed
#       monitor.traced.info   that file with what trace65 proposes; copy into monitor.info what you want to change
#       monitor.s             the listing by names. Once you have edited it, it is the source, and is not written again
#       monitor.html          its page
#       monitor.out           its bytes; then the differences from monitor.bin are shown
#   make -f repair.mk IMAGE=monitor.bin moves           adds to monitor.info what move65 finds, until that is nothing new
#   make -f repair.mk IMAGE=game.nes                    makes them for each part of a container, as game_bank0.info, and
#       game.new              the container with the bytes of all parts
#
# START is the address of a plain image, which ends at $FFFF otherwise. PART names the parts to work at, as in PART="bank0 bank3": the
# others go into game.new as they were made last. MACHINE chooses whose names are included (none leaves them out), FILL is the byte of
# --fill, and OPEN has other options of open65, as in OPEN="--kind nes", to be given each time. PROGRAMS is the folder of the programs, or
# what their names begin with. monitor.made has the checksums of what was made: nothing else is written over. Each run makes all of it anew
# and compares; times of files count for nothing.
PROGRAMS ?= $(dir $(firstword $(wildcard $(foreach up,. .. ../..,$(dir $(lastword $(MAKEFILE_LIST)))$(up)/bin/trace65))))

.PHONY: all moves
all:

quoted = '$(subst ','\'',$(1))'
bad := $(filter-out 1,$(words $(IMAGE)))$(shell printf %s $(call quoted,$(IMAGE)) | tr -d 'A-Za-z0-9_./+-')
name := $(basename $(notdir $(IMAGE)))
$(if $(bad),$(error IMAGE is the name of one file, with no blank in it, and with letters, digits and _ . / + - alone: '$(IMAGE)'))
$(if $(filter %.info %.s %.html %.out %.new %.made,$(IMAGE)),$(error $(IMAGE) has the name of a file that is made of an image))
# START as it was given, since make would read `$F` as a variable, unless it begins with one.
variables := $$(% $${%
start := $(if $(filter $(variables),$(value START)),$(START),$(value START))
$(if $(start),,$(if $(filter command,$(origin START)),$(error START is empty: write START=0xFC00, or put quotes around $$FC00)))
$(if $(filter-out -%,$(name)),,$(error IMAGE is the name of a file that does not begin with - or with its only dot: '$(IMAGE)'))

# All goals are phony: make deletes none of their files when it is interrupted, and has no other rule for them.
goals := all moves $(addprefix $(name).,info traced.info s html out new)
# The names of machines are beside this file, or beside its folder.
here := $(dir $(lastword $(MAKEFILE_LIST)))
names := $(abspath $(firstword $(wildcard $(here)names $(here)../names)))
.PHONY: $(goals)
$(goals): export repair_script = $(value repair)
$(goals):
	@$(if $(shell [ -f $(IMAGE) ] || echo lost),$(error there is no file $(IMAGE)))\
	exec env IMAGE=$(IMAGE) START=$(call quoted,$(start)) FILL=$(call quoted,$(FILL)) PROGRAMS=$(call quoted,$(PROGRAMS)) \
	    PART=$(call quoted,$(PART)) MACHINE=$(call quoted,$(MACHINE)) OPEN=$(call quoted,$(OPEN)) NAMES=$(call quoted,$(names)) \
	    bash -euo pipefail -c "$$repair_script" repair.mk $@ $(name)

define repair
goal=$1 whole=$2

fail() { echo "$1" >&2; exit 1; }

# A program that outlives this script does not hold its lock.
run() { "$programs$1" "${@:2}" 9<&-; }

# Whether FILE may be replaced: there is none, or it is as it was made.
is_free() { local sum; [ ! -e "$1" ] || { sum=$(sha256sum <"$1") && grep -qsF "$sum" "$whole.made"; }; }

# swap FILE CHECK..: puts work/FILE in the place of FILE if CHECK FILE succeeds, and fails if FILE stays. What a person saves after the
# check stays too: the copy that `mv -u` moves is as old as this run, so a FILE that was saved is newer; and one that was written in
# place during the move has another name here, is checked once more, and moved back. A FILE from the future is made older first.
swap() {
    local file status=1
    file=$(realpath "$1") && beside=$(mktemp -u "${file%/*}/.repair.XXXXXX") && mkdir -m 700 "$beside" || exit
    cp "$work/$1" "$beside/new" || exit
    touch -r "$work/begun" "$beside/new"
    if [ -f "$file" ]; then
        ln "$file" "$beside/old" 2>/dev/null || : # some file systems have no links
        cp --attributes-only --preserve=mode,ownership "$file" "$beside/new"
        [ "$file" -ot "$beside/new" ] || ! "${@:2}" "$file" || touch -c -d yesterday "$file"
    fi
    if "${@:2}" "$file"; then mv -uT "$beside/new" "$file" || exit; fi
    [ -e "$beside/new" ] || status=0
    if [ $status = 0 ] && [ -e "$beside/old" ] && ! "${@:2}" "$beside/old"; then
        mv -uT "$beside/old" "$file"
        status=1
    fi
    rm -r "$beside"
    return $status
}

# put FILE: puts work/FILE in the place of FILE if that is free. The checksum comes first: what was made never counts as edited.
put() {
    is_free "$work/$1" || sha256sum <"$work/$1" >>"$whole.made" || exit
    cmp -s "$work/$1" "$1" || swap "$1" is_free
}

put_or_fail() { put "$1" || fail "$1 is not as it was made, and stays: take it away"; }
# Whether nothing is to be made after this kind of file.
end_at() { [ "$goal" = "$whole.$1" ]; }

# Has open65 open the file in a folder of its own. For each part: its name, what its files begin with, its size and its address.
open_image() {
    local line
    mkdir "$work/opened"
    run open65 -d "$work/opened" ${start:+--at "0x$start"} "${options[@]}" "$IMAGE" >"$work/lines"
    sed -i "s|INPUTNAME \"$work/opened/|INPUTNAME \"|" "$work"/opened/*.info # where it will lie
    while read -r line; do
        [[ $line =~ ^([^ ]+)\ \ ([0-9,]+)\ bytes?\ at\ \$([0-9A-F]{4})\ \ ([^ ]+)\.info(\ |$) ]] || continue
        parts+=("${BASH_REMATCH[1]}") sizes+=("${BASH_REMATCH[2]//,/}") starts+=("${BASH_REMATCH[3]}") bases+=("${BASH_REMATCH[4]}")
    done <"$work/lines"
    [ ${#parts[@]} != 0 ] || fail "open65 finds no part in $IMAGE"
    [ -z "$start" ] || [[ " ${starts[*]} " == *" $start "* ]] || fail "START is the address of a plain image, and $IMAGE says its own"
}

# The numbers of the parts to work at.
chosen() {
    local k word
    [ "$PART" ] || { echo "${!parts[@]}"; return; }
    for word in $PART; do
        for k in "${!parts[@]}"; do [ "$word" != "${parts[k]}" ] && [ "$word" != "${bases[k]}" ] || break; done
        [ "$word" = "${parts[k]}" ] || [ "$word" = "${bases[k]}" ] || fail "there is no part $word in $IMAGE: it has ${parts[*]}"
        echo "$k"
    done
}

# Makes the information files that are not there, and says what open65 says if one of them was made.
make_infos() {
    local name said=
    for name; do
        [ ! -e "$name.info" ] || continue
        cp "$work/opened/$name.info" "$work/$name.info"
        ! swap "$name.info" test ! -e || said=1
    done
    [ -z "$said" ] || cat "$work/lines"
}

# The value of an attribute of the information file, or nothing.
value_of() { sed -nE 's/^([^"#]|"[^"]*")*\b'"$1"'\s*("[^"]*"|[$0-9a-f]+).*/\2/Ip;T;q' "$name.info" | tr -d '"'; }

# Fails if the information file is that of another image, and says so if START is another one than its own.
compare_info() {
    local found
    found=$(value_of INPUTNAME)
    [ -z "$found" ] || [ "$found" -ef "$image" ] || fail "$name.info is that of $found, and not of $image: work in another folder"
    found=$(value_of STARTADDR)
    [ -z "$start" ] || [ "$start" = "$(printf %04X "${found/#\$/0x}" 2>/dev/null)" ] ||
        echo "START counts only when $name.info is made: change STARTADDR there"
}

# name_listing INFO LISTING: makes the listing by names.
name_listing() {
    run da65 -i "$1" -o "$work/listed.s"
    run name65 --used -i "$1" "${fill[@]}" "$work/listed.s" >"$2"
}

# Each round begins at trace65, and is kept if no program refuses it, and if the information file is still the one that was read.
add_moves() {
    local round proposals
    cp "$name.info" "$work/read"
    sed '$a\' "$work/read" >"$work/$name.info" # ends its last line
    for ((round = 0; ; round++)); do
        run trace65 -i "$work/$name.info" --whole >"$work/traced.info"
        name_listing "$work/traced.info" "$work/moves.s"
        if ((round > 0)); then
            if ! swap "$name.info" cmp -s "$work/read"; then
                proposals=$(mktemp -u "$name.moves.XXXXXX")
                mv "$work/new" "$work/$proposals"
                swap "$proposals" test ! -e
                fail "$name.info has been edited meanwhile, and stays: what move65 finds is in $proposals"
            fi
            cp "$work/$name.info" "$work/read"
            echo "round $round: $(wc -l <"$work/new") lines more in $name.info"
        fi
        run move65 -i "$work/traced.info" "$work/moves.s" >"$work/said" || [ $? = 1 ]
        grep -E '^(#:|RANGE|LABEL)' "$work/said" | grep -vxFf "$work/$name.info" >"$work/new" || break
        cat "$work/new" >>"$work/$name.info"
    done
    grep '^# ' "$work/said" || :
}

# make_part PART NAME GOAL: the files of a part up to that of the goal.
make_part() {
    local part=$1 name=$2 goal=$3 image=$IMAGE
    if [ -e "$work/opened/$name.bin" ]; then # its bytes do not lie in one piece
        image=$name.bin
        cp "$work/opened/$image" "$work/$image"
        put_or_fail "$image"
    fi
    compare_info
    end_at info && return
    if [ "$goal" = moves ] && is_free "$name.s"; then
        add_moves
        goal=all
    fi
    run trace65 -i "$name.info" --whole >"$work/$name.traced.info"
    put_or_fail "$name.traced.info"
    end_at traced.info && return
    if [ "$goal" = moves ]; then # the listing is edited: it is only looked at
        run move65 -i "$name.traced.info" "$name.s" || [ $? = 1 ]
        return
    fi
    if is_free "$name.s"; then
        name_listing "$name.traced.info" "$work/$name.s"
        put "$name.s" || : # it has been edited meanwhile
    fi
    end_at s && return
    run html65 -i "$name.traced.info" "${fill[@]}" "$name.s" >"$work/$name.html"
    put_or_fail "$name.html"
    end_at html && return
    run as65 -i "$name.traced.info" "${fill[@]}" "$name.s" >"$work/$name.out"
    put_or_fail "$name.out"
    end_at out && return
    is_free "$name.s" || echo "$name.s is edited: it is the source, and is not written again"
    run as65 -i "$name.traced.info" "${fill[@]}" --compare "$image" "$name.s" >"$work/said" || [ $? = 1 ]
    if ((${#parts[@]} > 1)); then sed "s/^/$part: /" "$work/said"; else cat "$work/said"; fi
}

# Whether the file is more than the bytes of one part.
is_container() { ((${#parts[@]} > 1)) || [ "${sizes[0]}" != "$(stat -L -c %s "$IMAGE")" ]; }

# Puts the bytes of all parts that were made into a copy of the container.
put_back() {
    local k words=()
    for k in "${!parts[@]}"; do
        [ ! -e "${bases[k]}.out" ] || ! is_free "${bases[k]}.out" || words+=("${parts[k]}=${bases[k]}.out")
    done
    [ ${#words[@]} != 0 ] || return 0 # all listings are edited, and were only looked at
    run open65 --back "$IMAGE" -o "$work/$whole.new" "${options[@]}" "${words[@]}"
    put_or_fail "$whole.new"
}

fill=(${FILL:+--fill "$FILL"})
programs=${PROGRAMS/#\~\//${HOME-}/}
[ ! -d "$programs" ] || programs+=/
start=
if [ "$START" ]; then
    address=$(sed -E 's/^\$+/0x/' <<<"$START")
    [[ $address =~ ^(0[xX]0*[0-9a-fA-F]{1,4}|0|[1-9][0-9]{0,4})$ ]] && ((address < 65536)) ||
        fail "START is an address such as 0xFC00, '\$FC00' or 64512: $START"
    printf -v start %04X "$address"
fi

# One run at a time in a folder. The lock is on the folder itself, and ends with this script.
exec 9<.
flock -n 9 || { echo 'waiting for another run in this folder'; flock 9 || :; }
work='' beside=''
trap 'exit 1' HUP INT TERM # once what runs has ended, so that nothing is left
trap 'trap "" HUP INT TERM; rm -rf "$work" "$beside"' EXIT # make sends the signal that it gets once more
work=$(mktemp -u -t repair.XXXXXX) # its name is known before it is made, so it is not left if this ends in between
mkdir -m 700 "$work"
touch "$work/begun"

parts=() bases=() sizes=() starts=() todo=()
read -ra options <<<"$OPEN"
options+=(${MACHINE:+--machine "$MACHINE"} ${NAMES:+--names "$NAMES"})
open_image
numbers=$(chosen)
for k in $numbers; do todo+=("${bases[k]}"); done
make_infos "${todo[@]}"
for k in $numbers; do make_part "${parts[k]}" "${bases[k]}" "$goal"; done
case $goal in all | moves | "$whole.new") ;; *) exit 0 ;; esac
if is_container; then put_back; fi
endef
