# What host/build, host/fuzz_guided and host/install_check share. They source it before they go to the repository's root,
# because the folder may be named from where the caller stands.
#
# If KUZHENGA_ARCHIVES=DIR is given, `archives` is that folder from the root on. If not, it is empty. If the folder has no
# archive, the script ends with status 2.
archives=
if [ -n "${KUZHENGA_ARCHIVES:-}" ]; then
    if [ ! -f "$KUZHENGA_ARCHIVES/libkuzhenga.a" ]; then
        echo "no libkuzhenga.a in $KUZHENGA_ARCHIVES" >&2
        exit 2
    fi
    archives=$(cd "$KUZHENGA_ARCHIVES" && pwd)
fi
