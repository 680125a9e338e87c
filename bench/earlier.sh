# shared_library ARCHIVE: makes a shared library below target/ of an archive, or of the libembed.a in a folder, and names it. The
# benchmark loads it beside the linked one, whose functions have the same names. Nothing is made or named for an empty argument.
shared_library() {
    local archive=$1 made=$PWD/target/earlier/libearlier.so
    [ -n "$archive" ] || return 0
    [ ! -d "$archive" ] || archive=$archive/libembed.a
    mkdir -p "$(dirname "$made")"
    cc -shared -o "$made" -Wl,-Bsymbolic -Wl,-z,now -Wl,--whole-archive "$archive" -Wl,--no-whole-archive
    echo "$made"
}
