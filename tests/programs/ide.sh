#!/bin/bash
# The settings of docs/IDE.md for editors that start GDB, and the files that the kit makes for them:
# tests/programs/ide.sh PROGRAM. GDB's machine interface is given what an editor gives it, by the program and by a port;
# Emacs itself runs without a window. What takes a tool that is missing is skipped, which a line says.
. "$(dirname "$0")/check.sh"

# may_have TOOL NAME: as `have`, of a tool that .ci/run doesn't install.
may_have() {
    command -v "$1" > /dev/null || { skip "$2" "$1, which the gate doesn't install"; return 1; }
}
sdk=$PWD/sdk
for tool in python3 make mips-linux-gnu-gcc gdb-multiarch; do
    have $tool "GDB in editors" || { summary; exit; }
done
mkdir "$work/bin"
ln -s "$board" "$work/bin/board"
new=$work/new
"$sdk/new" "$new" > "$work/out"
export BOARD=$board

# One command after the other for GDB's machine interface, as an editor sends them: the next once the answer is there,
# and where that is `^running` once something has stopped. It prints what GDB says.
cat > "$work/editor.py" << 'END'
import subprocess, sys
gdb = subprocess.Popen(["gdb-multiarch", "-nx", "-q", "-i=mi"], stdin=subprocess.PIPE, stdout=subprocess.PIPE,
                       stderr=subprocess.STDOUT, text=True, bufsize=1)
def read_to(*marks):
    for line in gdb.stdout:
        print(line, end="")
        if line.startswith(marks):
            return line
    sys.exit(1)
for command in sys.stdin:
    gdb.stdin.write(command)
    if read_to("^").startswith("^running"):
        read_to("*stopped")
gdb.stdin.write("-gdb-exit\n")
read_to("^exit")
END

# session NAME FOLDER PATTERN..: GDB's machine interface in a folder, with the commands of standard input. It has to
# print a line for each pattern, in this order, and no error.
session() {
    local name=$1 folder=$2 status it=0 line
    shift 2
    local wanted=("$@")
    (cd "$folder" && PATH=$work/bin:$PATH timeout 60 python3 "$work/editor.py" > "$work/said" 2>&1)
    status=$?
    while IFS= read -r line; do
        if [ $it -lt ${#wanted[@]} ] && [[ "$line" =~ ${wanted[it]} ]]; then it=$((it + 1)); fi
    done < "$work/said"
    verdict "$name" "$(
        [ $status = 0 ] && [ $it = ${#wanted[@]} ] && ! grep -q '^\^error' "$work/said" ||
            { echo "status $status, no line '${wanted[it]:-}':"; tail -c 2500 "$work/said"; })"
}

# settings FILE NAME KEY: the commands of a configuration, as its extension gives them to GDB's machine interface.
settings() {
    python3 - "$@" << 'END'
import json, sys
path, name, key = sys.argv[1:]
with open(path, encoding="utf-8") as file:
    found = [it for it in json.load(file)["configurations"] if it["name"] == name][0][key]
if isinstance(found, str):
    print(found)
else:
    for it in found:
        text = it["text"] if isinstance(it, dict) else it
        quoted = text.replace("\\", "\\\\").replace('"', '\\"')
        print(text if isinstance(it, dict) or text[:1] == "-" else f'-interpreter-exec console "{quoted}"')
END
}

# What an editor asks for at a break in `greet`, and what GDB answers.
asked() {
    printf '%s\n' '-break-insert greet' -exec-continue -thread-info '-stack-list-frames --thread 1' \
        '-stack-list-variables --thread 1 --frame 0 --simple-values' '-data-list-register-values x' -exec-next \
        '-exec-next --reverse' '-data-evaluate-expression times' '-interpreter-exec console "monitor where"'
}
answered=('^\^done,bkpt=.*func="greet"' '^\*stopped,reason="breakpoint-hit".*func="greet"'
    '^\^done,threads=\[\{id="1",target-id="Thread 1",details="cpu 1, runs".*func="greet"'
    '^\^done,stack=\[frame=\{level="0".*func="greet".*level="1".*func="task_1"' '^\^done,variables=.*name="times"'
    '^\^done,register-values=' '^\*stopped,reason="end-stepping-range"' '^\*stopped,reason="end-stepping-range"'
    '^\^done,value="3"' '^@"position ')

# ---- Visual Studio Code

# The files name targets that are there, and tasks of each other; what a problem looks like is what the kit prints.
verdict "the files for Visual Studio Code" "$(python3 - "$new" 2>&1 << 'END'
import json, re, subprocess, sys
tasks, launch = (json.load(open(f"{sys.argv[1]}/.vscode/{it}.json")) for it in ("tasks", "launch"))
for it in tasks["tasks"]:
    ran = subprocess.run([*it["command"].split(), "-n"], cwd=sys.argv[1], stdout=subprocess.PIPE, stderr=subprocess.STDOUT)
    if ran.returncode != 0:
        print(it["label"], ran.stdout.decode())
commands = {it["label"]: it["command"] for it in tasks["tasks"]}
for it in launch["configurations"]:
    command = commands.get(it["preLaunchTask"])
    if command is None:
        print("no task", it["preLaunchTask"])
    elif it.get("gdbTarget", "127.0.0.1:") != "127.0.0.1:" + command.partition("PORT=")[2]:
        print("no server at", it["gdbTarget"])
patterns = [it["pattern"]["regexp"] for task in tasks["tasks"] if isinstance(task["problemMatcher"], list)
            for it in task["problemMatcher"] if isinstance(it, dict)]
texts = ("firmware.cfg:5: this kernel hasn't CRE_CYC", "firmware.c:7: this doesn't hold: line != BUTTON (handler of line 3)")
for pattern, text in zip(patterns, texts):
    if not re.search(pattern, text):
        print(pattern, "isn't", text)
END
)"
make -s -C "$new" gdb-server > "$work/out" 2>&1
verdict "make gdb-server" "$([ "$(cat "$work/out")" = build/gdb-server ] && [ -x "$new/build/gdb-server" ] ||
    cat "$work/out")"
launch=$new/.vscode/launch.json
session "Visual Studio Code, by the program" "$new" '^\^connected' "${answered[@]}" < <(
    settings "$launch" firmware.journal customLaunchSetupCommands
    asked)
sed -n '/^```json$/,/^```$/p' docs/IDE.md | sed '1d;$d' > "$work/launch.json"
"$board" asm examples/hello/hello.s "$work/hello.elf"
cp examples/hello/hello.cfg examples/hello/hello.journal "$work"
session "Visual Studio Code, a program of board asm" "$work" '^\^connected' '^\^done,bkpt=' \
    '^\*stopped,reason="breakpoint-hit"' '^\^done,threads=.*cpu 1, runs' '^\*stopped,.*addr="0x80000004"' < <(
    settings "$work/launch.json" board customLaunchSetupCommands
    printf '%s\n' '-break-insert *0x80000008' -exec-continue -thread-info '-exec-step-instruction --reverse')

# ---- a port

# says NAME STATUS LINE COMMAND..: a command's status, and a line that it prints.
says() {
    local name=$1 status=$2 line=$3
    shift 3
    "$@" > "$work/out" 2>&1
    verdict "$name" "$([ $? = "$status" ] && grep -qxF -- "$line" "$work/out" || cat "$work/out")"
}
# A folder with what sdk/serve calls, and no socat.
mkdir "$work/few"
for tool in sh dirname basename; do ln -s "$(command -v $tool)" "$work/few/$tool"; done
says "sdk/serve without a program" 2 "use: sdk/serve PORT PROGRAM" sdk/serve 3333
says "sdk/serve with a wrong port" 2 "PORT is a number, and not 'usb'" sdk/serve usb "$new/build/gdb-server"
says "sdk/serve without socat and ncat" 2 "there is neither socat nor ncat: apt-get install socat" \
    env PATH="$work/few" sdk/serve 3333 "$new/build/gdb-server"
printf '#!/bin/sh\necho "$@"\n' > "$work/bin/socat"
chmod +x "$work/bin/socat"
says "make gdb-server with a port" 0 "TCP-LISTEN:3333,bind=127.0.0.1,reuseaddr,fork EXEC:./gdb-server" \
    env PATH="$work/bin:$PATH" make -s -C "$new" gdb-server PORT=3333
rm "$work/bin/socat"
says "make gdb-server with a port of the environment" 0 build/gdb-server env PORT=8080 make -s -C "$new" gdb-server

# at_port TOOL PATH: sessions with a server of this tool, which sdk/serve finds there.
at_port() {
    local port server other=
    port=$(python3 -c 'import socket; it = socket.socket(); it.bind(("127.0.0.1", 0)); print(it.getsockname()[1])')
    PATH=$2 sdk/serve "$port" "$new/build/gdb-server" > "$work/served" 2>&1 &
    server=$!
    # Cortex-Debug goes on with commands while the program runs, and restarts by commands.
    session "Visual Studio Code's Cortex-Debug, by $1" "$new" '^\^connected' "${answered[@]}" '^@"at 0' \
        '^\^done,threads=.*func="task_1"' < <(
        printf '%s\n' '-gdb-set mi-async on' '-file-exec-and-symbols build/firmware.elf'
        echo "-target-select extended-remote $(settings "$launch" "firmware.journal, Cortex-Debug" gdbTarget)" |
            sed "s/3333/$port/"
        settings "$launch" "firmware.journal, Cortex-Debug" overrideAttachCommands
        asked
        settings "$launch" "firmware.journal, Cortex-Debug" overrideRestartCommands
        printf '%s\n' -thread-info -target-detach)
    # The settings of CLion, while another session of the same server stands elsewhere.
    exec 8<> "/dev/tcp/127.0.0.1/$port"
    printf '+$?#3f' >&8
    session "CLion, by $1" "$new" '^\^connected' "${answered[@]}" < <(
        printf '%s\n' '-file-exec-and-symbols build/firmware.elf' "-target-select remote 127.0.0.1:$port"
        asked)
    read -r -t 20 -n 16 other <&8
    verdict "two sessions at a time, by $1" "$([ "$other" = '+$T05thread:01;#' ] || echo "the other one: '$other'")"
    exec 8>&-
    kill $server
    wait $server 2> "$work/nothing"
}
! may_have socat "GDB's server at a port, by socat" || at_port socat "$PATH"
if may_have ncat "GDB's server at a port, by ncat"; then
    ln -s "$(command -v ncat)" "$work/few/ncat"
    at_port ncat "$work/few"
fi

# ---- Emacs

if may_have emacs "GDB in Emacs"; then
    cat > "$work/gud.el" << 'END'
(require 'gdb-mi)
(setq gdb-show-main nil)
(defun wait-for (text)
  (let ((end (+ (float-time) 20)) found)
    (while (and (not found) (< (float-time) end))
      (accept-process-output nil 0.1)
      (with-current-buffer gud-comint-buffer
        (save-excursion (goto-char (point-min)) (setq found (re-search-forward text nil t)))))
    (unless found (message "no %s" text))))
(defun wait-for-line (line)
  (let ((end (+ (float-time) 20)))
    (while (and (not (equal (cdr gud-last-last-frame) line)) (< (float-time) end)) (accept-process-output nil 0.1))
    (message "line %s" (cdr gud-last-last-frame))))
(defun say (command)
  (with-current-buffer gud-comint-buffer (goto-char (point-max)) (insert command) (comint-send-input)))
(gdb (pop command-line-args-left))
(wait-for "0x80000000 in\\|task_1 ()")
(say "break *0x8000007c")
(wait-for "Breakpoint [0-9]+ at")
(say "continue")
(wait-for "Breakpoint [0-9]+, ")
(say "info threads")
(wait-for "Thread 1 \"[^\"]*\" (cpu 1, runs)")
(dolist (it '((14 "print 0") (15 "next") (14 "reverse-continue") (2 "reverse-continue")))
  (say (nth 1 it))
  (wait-for-line (car it)))
(kill-process (get-buffer-process gud-comint-buffer))
END
    # in_emacs NAME FOLDER COMMAND
    in_emacs() {
        (cd "$2" && timeout 150 emacs -Q --batch -l "$work/gud.el" "$3" > "$work/said" 2>&1)
        verdict "$1" "$(! grep '^no ' "$work/said" &&
            [ "$(grep '^line ' "$work/said" | xargs)" = "line 14 line 15 line 14 line 2" ] || cat "$work/said")"
    }
    in_emacs "Emacs in a project" "$new" "make -s gdb GDBFLAGS=-i=mi"
    in_emacs "Emacs with GDB alone" "$new/build" 'gdb-multiarch -i=mi firmware.elf -ex "target remote | ./gdb-server"'
fi
summary
