# Completion of vpc's words in zsh, as vpc.bash has it beside this file; it takes bash. A line in ~/.zshrc behind that of compinit turns
# it on:
#
#     source CHECKOUT/completion/vpc.zsh

_vpc_script=${${(%):-%x}:A:h}/vpc.bash

# What stands in the line is read as words, and never called. (what is found are names of letters, digits and some marks)
_vpc() {
    local -a told
    told=("${(@f)$(bash -- $_vpc_script "${(@Q)words[1,CURRENT-1]}" "${(Q)PREFIX}" 2>/dev/null)}")
    case $told[1] in
    files) _files ;;
    words) compadd -- "${(@)told[2,-1]}" ;;
    esac
}

compdef _vpc vpc
