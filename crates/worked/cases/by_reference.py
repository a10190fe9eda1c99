"""Makes the files of steps and the stored output again, from the program of other authorship in reference/.

    write(crate, parts)    writes CRATE/data/PART for each part, its steps, and CRATE/stdout: what CRATE/driver/, linked with the reference,
                           prints for them

A step is a word and numbers; in the file it is a line, with a space between.

The reference is copied into a temporary folder and built there, offline, so that nothing is left in the repository.
"""
import os, shutil, subprocess, tempfile
HERE = os.path.dirname(os.path.abspath(__file__))
REFERENCE = os.path.join(HERE, '..', '..', '..', 'reference')
MANIFEST = """[package]
name = "driver"
version = "0.1.0"
edition = "2021"

[dependencies]
wagner-reference = { path = "../reference" }
"""


def write(crate, parts):
    data = os.path.join(crate, 'data')
    os.makedirs(data, exist_ok=True)
    for part, steps in parts.items():
        with open(os.path.join(data, part), 'wb') as f:
            f.write(b''.join(' '.join(str(field) for field in step).encode() + b'\n' for step in steps))
    with tempfile.TemporaryDirectory() as work:
        shutil.copytree(REFERENCE, os.path.join(work, 'reference'), ignore=shutil.ignore_patterns('target'))
        driver = os.path.join(work, 'driver')
        shutil.copytree(os.path.join(crate, 'driver'), os.path.join(driver, 'src'))
        manifest = os.path.join(driver, 'Cargo.toml')
        with open(manifest, 'w') as f:
            f.write(MANIFEST)
        command = ['cargo', 'run', '--offline', '--quiet', '--manifest-path', manifest]
        run = subprocess.run(command, cwd=data, stdout=subprocess.PIPE, check=True)
    with open(os.path.join(crate, 'stdout'), 'wb') as f:
        f.write(run.stdout)
