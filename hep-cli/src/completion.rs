//! Completion of the command line for bash, made of the table of commands.

use crate::commands::COMMANDS;
use crate::help::OPTION;

/// The script: commands first, then the options of the command, else files.
pub fn bash() -> String {
    let names: Vec<&str> = COMMANDS.iter().map(|command| command.name).collect();
    let cases = COMMANDS.iter().map(|command| {
        let options = command.options.iter().chain([&OPTION]);
        let options: Vec<String> = options.map(|option| format!("--{}", option.long)).collect();
        format!("        {}) options='{}' ;;\n", command.name, options.join(" "))
    });
    format!(
        "_hep() {{\n    local word=${{COMP_WORDS[COMP_CWORD]}} options=\n    \
         if [ \"$COMP_CWORD\" = 1 ]; then\n        \
         mapfile -t COMPREPLY < <(compgen -W '{} help --help --version' -- \"$word\")\n        return\n    fi\n    \
         case ${{COMP_WORDS[1]}} in\n{}    esac\n    \
         if [[ $word == -* ]]; then mapfile -t COMPREPLY < <(compgen -W \"$options\" -- \"$word\")\n    \
         else mapfile -t COMPREPLY < <(compgen -f -- \"$word\"); fi\n}}\ncomplete -o filenames -F _hep hep\n",
        names.join(" "),
        cases.collect::<String>()
    )
}
