# Prints what zsh offers after `cq_switch ` and after `cq_switch run `, at a terminal of its own.
zmodload zsh/zpty
zpty offers zsh -f -i
for line in "PROMPT=; fpath=($1 \$fpath)" 'autoload -Uz compinit; compinit -u -D' 'zstyle ":completion:*" list-prompt ""'; do
    zpty -w offers $line
done
sleep 1
zpty -w -n offers $'cq_switch \t\t'
sleep 1
zpty -w -n offers $'\C-ucq_switch run \t\t'
sleep 1
zpty -w -n offers $'\C-uexit\n'
while zpty -r offers line; do
    print -r -- $line
done
