//! The scripts that complete the command line in a shell.

use crate::runs::{folder, run_in, words};

fn script(shell: &str) -> String {
    let run = words(&["completions", shell]);
    assert_eq!((run.status, run.errors.as_str()), (0, ""));
    run.text
}

/// The names of the commands, as the help lists them.
fn commands() -> Vec<String> {
    let help = words(&["-h"]).text;
    let (_, listed) = help.split_once("Commands:\n").expect("commands are listed");
    let (listed, _) = listed.split_once("\n\n").expect("and the list ends");
    let names = listed.lines().filter_map(|line| line.strip_prefix("  "));
    let names = names.filter(|line| !line.starts_with(' '));
    names
        .map(|line| line.split(' ').next().unwrap().to_string())
        .collect()
}

#[test]
fn each_script_knows_every_command() {
    let commands = commands();
    assert!(commands.contains(&"check".to_string()), "{commands:?}");
    for shell in ["bash", "elvish", "fish", "powershell", "zsh"] {
        let script = script(shell);
        for command in &commands {
            assert!(script.contains(command), "{shell}: {command}");
        }
    }
}

#[test]
fn bash_completes_a_command_and_an_option() {
    let completed = |line: &str| {
        let script = format!(
            "bash -c 'source <(./rekwonuda completions bash); COMP_WORDS=({line}); \
             COMP_CWORD=$((${{#COMP_WORDS[@]}} - 1)); \
             _rekwonuda rekwonuda \"${{COMP_WORDS[COMP_CWORD]}}\" \"${{COMP_WORDS[COMP_CWORD-1]}}\"; \
             echo \"${{COMPREPLY[@]}}\"'"
        );
        run_in(&folder("completions"), &script).text
    };
    assert_eq!(completed("rekwonuda che"), "check\n");
    assert_eq!(completed("rekwonuda check --al"), "--all\n");
}

#[test]
fn a_script_is_no_json_and_a_shell_must_be_known() {
    for wrong in [
        &["completions", "bash", "--json"][..],
        &["completions", "tcsh"],
    ] {
        assert_eq!(words(wrong).status, 2);
    }
}
