#!/bin/sh
# Makes the real streams in streams/: by ffmpeg, GStreamer and VLC, of all three layouts, and the published samples that
# Debian has. `sh setup.sh streams` first. `compare streams` writes the profile beside each file from its PAT and PMT.
set -eu
cd "$(dirname "$0")"
mkdir -p streams/tmp
cd streams
longest=16777216

# keep NAME: the file that was just made, cut to the longest recording; nothing if it is empty.
keep() {
    if [ -s "tmp/$1" ]; then
        head -c $longest "tmp/$1" >"$1"
        rm -f "tmp/$1" "$1.profile"
        echo "$1 $(wc -c <"$1")"
    else
        echo "$1 NOT MADE"
    fi
}

ff() {
    name=$1
    shift
    nice -n 10 ffmpeg -nostdin -y -loglevel error "$@" -threads 1 "tmp/$name" </dev/null || true
    keep "$name"
}

picture="-f lavfi -i testsrc2=size=320x240:rate=25"
noise="-f lavfi -i nullsrc=size=320x240:rate=25,geq=random(1)*255:128:128"
tone="-f lavfi -i sine=frequency=440:sample_rate=48000"
mpeg2="-c:v mpeg2video -g 12 -bf 2"
ts="-f mpegts"

# shellcheck disable=SC2086
{
    ff ff_mpeg2_mp2.ts $picture $tone -t 8 $mpeg2 -b:v 1M -c:a mp2 -b:a 128k $ts
    ff ff_h264_aac.ts $picture $tone -t 10 -c:v libx264 -preset ultrafast -b:v 800k -c:a aac -b:a 96k $ts
    ff ff_h264_bframes.ts $picture $tone -t 6 -c:v libx264 -preset superfast -bf 3 -b:v 600k -c:a aac $ts
    ff ff_cbr3M.ts $picture $tone -t 8 $mpeg2 -b:v 2M -minrate 2M -maxrate 2M -bufsize 1M -c:a mp2 -muxrate 3M $ts
    ff ff_cbr_pcr20.ts $picture $tone -t 5 $mpeg2 -b:v 1M -c:a mp2 -muxrate 2M -pcr_period 20 $ts
    ff ff_cbr_pcr100.ts $picture $tone -t 5 $mpeg2 -b:v 1M -c:a mp2 -muxrate 2M -pcr_period 100 $ts
    ff ff_pes_small.ts $picture $tone -t 6 $mpeg2 -b:v 500k -c:a mp2 -b:a 64k -pes_payload_size 300 $ts
    ff ff_wrap.ts $picture $tone -t 8 $mpeg2 -b:v 500k -c:a mp2 -output_ts_offset 95440 $ts
    ff ff_discontinuity.ts $picture $tone -t 4 $mpeg2 -b:v 500k -c:a mp2 -mpegts_flags +initial_discontinuity+resend_headers $ts
    ff ff_delay_long.ts $picture $tone -t 6 $mpeg2 -b:v 500k -c:a mp2 -muxdelay 2 -muxpreload 2 $ts
    ff ff_audio.ts $tone -t 20 -c:a mp2 -b:a 192k $ts
    ff ff_ac3.ts $picture $tone -t 6 $mpeg2 -b:v 700k -c:a ac3 -b:a 384k $ts
    ff ff_many.ts $picture $picture $tone $tone $tone $tone -t 6 -map 0 -map 1 -map 2 -map 3 -map 4 -map 5 $mpeg2 -b:v 700k -c:a mp2 $ts
    ff ff_192.m2ts $picture $tone -t 8 -c:v libx264 -preset ultrafast -b:v 800k -c:a ac3 -mpegts_m2ts_mode 1 $ts
    ff ff_big.ts $noise $tone -t 11 $mpeg2 -q:v 8 -c:a mp2 -b:a 256k $ts
}

# The first of them in packets of 204 bytes, with the bytes of the packet itself as a trailer.
perl -e 'binmode STDIN; binmode STDOUT; while (read(STDIN, $p, 188) == 188) { print $p, substr($p, 4, 16) }' \
    <ff_mpeg2_mp2.ts >tmp/pad_204.ts
keep pad_204.ts

gst() {
    name=$1
    shift
    nice -n 10 timeout 120 gst-launch-1.0 -q "$@" ! filesink location="tmp/$name" >tmp/gst.log 2>&1 </dev/null || true
    keep "$name"
}

raw="videotestsrc num-buffers=200 ! video/x-raw,width=320,height=240,framerate=25/1"
x264="x264enc speed-preset=ultrafast bitrate=600 ! h264parse"
sound="audiotestsrc num-buffers=375 samplesperbuffer=1024 ! audio/x-raw,rate=48000,channels=2"
# shellcheck disable=SC2086
{
    gst gst_h264.ts $raw ! $x264 ! mpegtsmux
    gst gst_h264_mp3.ts $sound ! lamemp3enc ! mpegaudioparse ! mux. $raw ! $x264 ! mpegtsmux name=mux
    gst gst_cbr5M.ts $sound ! lamemp3enc ! mpegaudioparse ! mux. $raw ! $x264 ! mpegtsmux name=mux bitrate=5000000
    gst gst_pcr.ts $raw ! $x264 ! mpegtsmux pcr-interval=900
    gst gst_192.m2ts $raw ! $x264 ! mpegtsmux m2ts-mode=true
    gst gst_audio.ts $sound ! lamemp3enc ! mpegaudioparse ! mpegtsmux
}

# VLC muxes what ffmpeg made. It does not run as root, so it goes by nobody there.
vlc_mux() {
    name=$1
    from=$2
    mux=$3
    work=$(mktemp -d)
    cp "$from" "$work/in.ts"
    chmod -R a+rwX "$work"
    as=""
    [ "$(id -u)" -ne 0 ] || as="setpriv --reuid=65534 --regid=65534 --clear-groups"
    HOME="$work" nice -n 10 timeout 120 $as cvlc -q --no-sout-all --sout-keep "$work/in.ts" \
        --sout "#std{access=file,mux=$mux,dst=$work/out.ts}" vlc://quit >"$work/log" 2>&1 </dev/null || true
    cp "$work/out.ts" "tmp/$name" 2>/dev/null || true
    rm -rf "$work"
    keep "$name"
}

vlc_mux vlc_ts.ts ff_mpeg2_mp2.ts ts
vlc_mux vlc_pids.ts ff_h264_aac.ts 'ts{pid-video=300,pid-audio=301,pid-pmt=64,pcr=30,use-key-frames}'
vlc_mux vlc_bitrate.ts ff_mpeg2_mp2.ts 'ts{bmin=1500000,bmax=3000000,pcr=70,dts-delay=400}'

# Published samples.
cp /usr/share/kodi/addons/pvr.mythtv/resources/channel_unavailable.ts tmp/kodi_unavailable.ts 2>/dev/null || true
keep kodi_unavailable.ts

# published PACKAGE: every file of the source package that begins as a transport stream does.
published() {
    mkdir -p tmp/source
    (
        cd tmp/source
        echo 'deb-src http://deb.debian.org/debian bookworm main' >list
        apt-get -o Dir::Etc::sourcelist="$PWD/list" -o Dir::Etc::sourceparts=- update >/dev/null 2>&1 || true
        apt-get -o Dir::Etc::sourcelist="$PWD/list" -o Dir::Etc::sourceparts=- source --download-only "$1" >/dev/null 2>&1 || true
        for archive in "$1"_*.orig*.tar.*; do
            [ -s "$archive" ] && tar -xf "$archive"
        done
    )
    find tmp/source -type f -size +376c | sort | while read -r file; do
        if perl -e 'open F, "<", $ARGV[0]; binmode F; read F, $b, 1632; sub g { my ($o, $s) = @_; for my $k (0 .. 7) { my $at = $o + $k * $s; last if $at >= length $b; return 0 if substr($b, $at, 1) ne "G" } return length $b > $o + $s } exit !(g(0, 188) || g(4, 192) || g(0, 204))' "$file"; then
            name=$(echo "$1_$(basename "$file")" | tr -c 'A-Za-z0-9_.\n' '_')
            case $name in *.ts | *.m2ts | *.mts) ;; *) name=$name.ts ;; esac
            cp "$file" "tmp/$name"
            keep "$name"
        fi
    done
    rm -rf tmp/source
}

published gst-plugins-bad1.0
published shared-mime-info
published totem-pl-parser
rm -rf tmp
ls -l | awk '{ n += $5 } END { print "streams: " n " bytes" }'
