# Completion of vpc's words in fish, as vpc.bash has it beside this file; it takes bash. A line in ~/.config/fish/config.fish turns it on:
#
#     source CHECKOUT/completion/vpc.fish

set -g __vpc_script (realpath (status dirname))/vpc.bash

# What stands in the line is read as words, and never called. (what is found are names of letters, digits and some marks)
function __vpc_told
    set -l line (commandline -opc)
    while string match -qr '^[A-Za-z_]\w*=' -- $line[1]
        set -e line[1]
    end
    set -l begun (commandline -ct)
    set -l told (bash -- $__vpc_script $line "$begun" 2>/dev/null)
    switch "$told[1]"
        case files
            __fish_complete_path "$begun"
        case words
            printf '%s\n' $told[2..]
    end
end

complete -c vpc -f -a '(__vpc_told)'
