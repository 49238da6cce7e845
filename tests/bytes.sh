# shellcheck shell=sh
# Bytes of tests, written as words.

# bytes WORD..: each word a byte in hex, or N*HH for N of them
bytes() {
    for word in "$@"; do
        # shellcheck disable=SC2059 # the octal number is for printf to read
        case $word in
        *\**) head -c "${word%\**}" /dev/zero | tr '\0' "\\$(printf %o "0x${word#*\*}")" ;;
        *) printf "\\$(printf %o "0x$word")" ;;
        esac
    done
}
