# Completions of ptree(1) for bash.
complete -W 'bytes text units' ptree
