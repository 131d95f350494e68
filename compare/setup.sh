#!/bin/sh
# Installs what the comparison needs from Debian: the crate thiserror as source, and, with "streams" as an argument,
# the muxers and the published samples that streams.sh uses. Run it as root. Rust itself (edition 2024) must be there.
set -eu
export DEBIAN_FRONTEND=noninteractive
apt-get update
apt-get install -y --no-install-recommends librust-thiserror-dev
if [ "${1:-}" = streams ]; then
    apt-get install -y --no-install-recommends ffmpeg gstreamer1.0-tools gstreamer1.0-plugins-base \
        gstreamer1.0-plugins-good gstreamer1.0-plugins-bad gstreamer1.0-plugins-ugly vlc-bin vlc-plugin-base \
        kodi-pvr-mythtv dpkg-dev curl xz-utils perl
fi
