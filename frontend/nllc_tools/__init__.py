"""The tools for Rust: from a Rust file to facts texts and MIR texts, to what is wrong in it, and to pages.

Nothing here is proved. The folders are layers, and a module imports from its own and those above it in this list:

    base      how a command ends, its streams, files and processes; the programs `nllc` and `world_program`
    rustc     runs rustc and Cargo, reads what they write: errors, fact tables, MIR
    model     a function: points, regions, loans, moves, constraints, faults
    texts     writes facts texts and MIR texts, and reads them and reports
    judge     what is wrong, beside what rustc says of it
    views     what is shown: on a terminal, as JSON, as pages
    commands  the commands of nllc.sh
"""
