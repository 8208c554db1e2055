# For scripts that read the Rust source: . oracle/source.sh

# rust_source FOLDER PATH: the whole name of a file of the Rust source. The folder is a checkout, or has the files side by side, named by their paths.
# Fails where it has no such file.
rust_source() {
    for file in "$1/$2" "$1/src--$(echo "$2" | sed 's|/|--|g').txt"; do
        if [ -f "$file" ]; then
            readlink -f "$file"
            return
        fi
    done
    return 1
}
