"""The clips and the streams: every setting that is tried. A stream's line: name, clip, options."""

import shlex
from typing import NamedTuple

MOVING = "testsrc2=size={size}:rate={rate},noise=alls=12:allf=t"
SCREEN = "testsrc=size={size}:rate={rate}"

# name: picture, size, pixel format, rate
CLIPS = {
    "420-8": (MOVING, "176x144", "yuv420p", 25),
    "420-10": (MOVING, "176x144", "yuv420p10le", 25),
    "420-12": (MOVING, "176x144", "yuv420p12le", 25),
    "420-left": (MOVING, "176x144", "yuv420p -chroma_sample_location left", 25),
    "422-8": (MOVING, "176x144", "yuv422p", 25),
    "422-10": (MOVING, "176x144", "yuv422p10le", 25),
    "422-12": (MOVING, "176x144", "yuv422p12le", 25),
    "444-8": (MOVING, "176x144", "yuv444p", 25),
    "444-10": (MOVING, "176x144", "yuv444p10le", 25),
    "444-12": (MOVING, "176x144", "yuv444p12le", 25),
    "gray-8": (MOVING, "176x144", "gray", 25),
    "gray-10": (MOVING, "176x144", "gray10le", 25),
    "tiny": (MOVING, "64x64", "yuv420p", "30000/1001"),
    "odd": (MOVING, "130x66", "yuv420p", 50),
    "large": (MOVING, "352x288", "yuv420p", 30),
    "hd": (SCREEN, "1280x720", "yuv420p", 120),
    "screen": (SCREEN, "352x288", "yuv420p", 25),
    "screen-444": (SCREEN, "176x144", "yuv444p", 25),
}

AOMENC = """
plain             420-8       --limit=10
best              large       --limit=3 --cpu-used=2
best-128          large       --limit=3 --cpu-used=2 --sb-size=128
best-low          large       --limit=3 --cpu-used=2 --end-usage=q --cq-level=50
best-high         420-8       --limit=3 --cpu-used=2 --end-usage=q --cq-level=20
best-444          444-8       --limit=3 --cpu-used=2 --profile=1
best-422          422-8       --limit=3 --cpu-used=2 --profile=2
best-mono         420-8       --limit=3 --cpu-used=2 --monochrome
slowest           tiny        --limit=3 --cpu-used=0
best-10           420-10      --limit=3 --cpu-used=2 --bit-depth=10
10-bit            420-10      --limit=4 --bit-depth=10
12-bit            420-12      --limit=4 --bit-depth=12 --profile=2
444               444-8       --limit=4 --profile=1
444-10            444-10      --limit=4 --profile=1 --bit-depth=10
444-12            444-12      --limit=4 --profile=2 --bit-depth=12
422               422-8       --limit=4 --profile=2
422-10            422-10      --limit=4 --profile=2 --bit-depth=10
422-12            422-12      --limit=4 --profile=2 --bit-depth=12
mono              420-8       --limit=4 --monochrome
mono-10           420-10      --limit=4 --monochrome --bit-depth=10
mono-12           420-12      --limit=4 --monochrome --profile=2 --bit-depth=12
mono-lossless     420-8       --limit=3 --monochrome --lossless=1
mono-qm           420-8       --limit=4 --monochrome --enable-qm=1 --qm-min=2 --qm-max=9
mono-still        420-8       --limit=1 --monochrome
still             420-8       --limit=1
still-full        420-8       --limit=1 --full-still-picture-hdr
still-video       420-8       --limit=1 --force-video-mode=1
still-444-10      444-10      --limit=1 --allintra --profile=1 --bit-depth=10
still-422-12      422-12      --limit=1 --allintra --profile=2 --bit-depth=12
still-odd         odd         --limit=1 --allintra --enable-cdef=0 --enable-restoration=0
still-screen      screen      --limit=1 --allintra --tune-content=screen
timing            420-8       --limit=4 --timing-info=constant
timing-model      420-8       --limit=4 --timing-info=model --lag-in-frames=0
timing-model-rt   odd         --limit=4 --timing-info=model --rt --cpu-used=8 --lag-in-frames=0 --end-usage=cbr --target-bitrate=300
timing-tiny       tiny        --limit=4 --timing-info=constant
bt2020            420-10      --limit=4 --bit-depth=10 --color-primaries=bt2020 --transfer-characteristics=smpte2084 --matrix-coefficients=bt2020ncl
bt709             420-8       --limit=4 --color-primaries=bt709 --transfer-characteristics=bt709 --matrix-coefficients=bt709
srgb              444-8       --limit=4 --profile=1 --color-primaries=bt709 --transfer-characteristics=srgb --matrix-coefficients=identity
srgb-12           444-12      --limit=2 --profile=2 --bit-depth=12 --color-primaries=bt709 --transfer-characteristics=srgb --matrix-coefficients=identity
mono-described    420-8       --limit=2 --monochrome --color-primaries=bt601 --transfer-characteristics=bt601 --matrix-coefficients=bt601
chroma-vertical   420-left    --limit=4 --chroma-sample-position=vertical
chroma-colocated  420-8       --limit=4 --chroma-sample-position=colocated
superres          large       --limit=4 --superres-mode=1 --superres-denominator=13 --superres-kf-denominator=11
superres-random   large       --limit=6 --superres-mode=2
superres-lossless 420-8       --limit=3 --superres-mode=1 --superres-denominator=16 --superres-kf-denominator=16 --lossless=1
resize            large       --limit=4 --resize-mode=1 --resize-denominator=12
screen            screen      --limit=4 --tune-content=screen
screen-444        screen-444  --limit=4 --tune-content=screen --profile=1
grain             420-8       --limit=4 --film-grain-test=5
grain-mono        420-8       --limit=4 --film-grain-test=1 --monochrome
superblock-128    large       --limit=4 --sb-size=128
superblock-64     large       --limit=4 --sb-size=64
lossless          420-8       --limit=4 --lossless=1
lossless-444      444-8       --limit=4 --lossless=1 --profile=1
qm                420-8       --limit=4 --enable-qm=1
qm-steep          large       --limit=4 --enable-qm=1 --qm-min=0 --qm-max=6
qm-444-10         444-10      --limit=4 --enable-qm=1 --qm-min=4 --qm-max=12 --profile=1 --bit-depth=10
chroma-deltaq     420-8       --limit=6 --enable-chroma-deltaq=1
chroma-deltaq-444 444-8       --limit=6 --enable-chroma-deltaq=1 --profile=1 --enable-qm=1
aq-variance       large       --limit=6 --aq-mode=1 --deltaq-mode=0
aq-complexity     large       --limit=8 --aq-mode=2 --deltaq-mode=0 --end-usage=vbr --target-bitrate=200
aq-cyclic         large       --limit=12 --aq-mode=3 --rt --cpu-used=7 --end-usage=cbr --target-bitrate=150 --lag-in-frames=0 --error-resilient=0
aq-mono           420-8       --limit=6 --aq-mode=1 --deltaq-mode=0 --monochrome
aq-resilient      large       --limit=8 --aq-mode=1 --deltaq-mode=0 --error-resilient=1
delta-lf          large       --limit=6 --deltaq-mode=1 --delta-lf-mode=1
cdef-off          420-8       --limit=4 --enable-cdef=0
restoration-off   420-8       --limit=4 --enable-restoration=0
filters-off       420-8       --limit=4 --enable-cdef=0 --enable-restoration=0 --loopfilter-control=0
sharpness         420-8       --limit=6 --sharpness=5
sharpness-mono    420-8       --limit=6 --sharpness=7 --monochrome
resilient         420-8       --limit=6 --error-resilient=1 --frame-parallel=1
switch-frames     420-8       --limit=10 --sframe-dist=4 --sframe-mode=1 --lag-in-frames=0
no-order-hint     420-8       --limit=4 --enable-order-hint=0 --lag-in-frames=0
few-tools         420-8       --limit=4 --enable-dual-filter=0 --enable-masked-comp=0 --enable-interintra-comp=0 --enable-warped-motion=0 --enable-filter-intra=0 --enable-intra-edge-filter=0 --enable-ref-frame-mvs=0 --enable-dist-wtd-comp=0
tile-groups       large       --limit=3 --tile-columns=1 --tile-rows=1 --num-tile-groups=2
high-tier         hd          --limit=2 --rt --cpu-used=9 --set-tier-mask=1
main-tier         hd          --limit=2 --rt --cpu-used=9
forward-key       420-8       --limit=24 --enable-fwd-kf=1 --kf-max-dist=12 --lag-in-frames=12
max-size          420-8       --limit=2 --forced_max_frame_width=1920 --forced_max_frame_height=1080
coarse            large       --limit=6 --end-usage=q --cq-level=63
fine              large       --limit=6 --end-usage=q --cq-level=5
realtime          large       --limit=8 --rt --cpu-used=9 --end-usage=cbr --target-bitrate=100 --lag-in-frames=0
"""

SVT = """
plain             420-8       -n 8 --preset 8
best              large       -n 4 --preset 4
fastest           large       -n 6 --preset 12
10-bit            420-10      -n 6 --preset 8 --input-depth 10
level             420-8       -n 2 --preset 12 --level 5.1
aq-variance       large       -n 8 --preset 8 --aq-mode 1 --qp 40
cqp               large       -n 6 --preset 8 --aq-mode 0 --qp 50
grain             420-8       -n 4 --preset 10 --film-grain 20
superres          large       -n 4 --preset 8 --superres-mode 1 --superres-denom 12 --superres-kf-denom 10
qm                large       -n 4 --preset 8 --enable-qm 1 --qm-min 0 --qm-max 10
luma-offset       420-8       -n 4 --preset 8 --luma-y-dc-qindex-offset -9
chroma-offsets    large       -n 6 --preset 8 --aq-mode 0 --qp 40 --use-fixed-qindex-offsets 1 --key-frame-chroma-qindex-offset 12 --chroma-qindex-offsets 10,-10,5,-6,7,-8
hdr               420-10      -n 2 --preset 10 --input-depth 10 --color-primaries 9 --transfer-characteristics 16 --matrix-coefficients 9 --color-range 1 --chroma-sample-position topleft
full-range        420-8       -n 2 --preset 10 --color-range 1
screen            screen      -n 4 --preset 8 --scm 1
filters-off       420-8       -n 4 --preset 10 --enable-dlf 0 --enable-cdef 0 --enable-restoration 0
low-delay         420-8       -n 8 --preset 10 --pred-struct 1 --hierarchical-levels 3
constant-bitrate  large       -n 8 --preset 10 --pred-struct 1 --rc 2 --tbr 200
overlays          420-8       -n 20 --preset 8 --enable-overlays 1 --hierarchical-levels 3
resize            large       -n 4 --preset 10 --resize-mode 1 --resize-denom 12 --resize-kf-denom 10
"""

RAV1E = """
plain             420-8       -l 6 -s 8
best              large       -l 3 -s 5
10-bit            420-10      -l 4 -s 9
12-bit            420-12      -l 3 -s 9
422               422-8       -l 4 -s 9
422-12            422-12      -l 3 -s 9
444               444-8       -l 4 -s 9
444-10            444-10      -l 4 -s 9
mono              gray-8      -l 4 -s 9
still             420-8       -l 1 -s 9 --still-picture
full-range        420-8       -l 3 -s 9 --range full
hdr               420-10      -l 3 -s 9 --primaries BT2020 --transfer SMPTE2084 --matrix BT2020NCL
srgb              444-8       -l 3 -s 9 --primaries BT709 --transfer SRGB --matrix Identity --range full
coarse            large       -l 6 -s 7 --quantizer 255
fine              large       -l 4 -s 7 --quantizer 10
low-latency       large       -l 6 -s 8 --low-latency
psnr              large       -l 6 -s 7 --tune Psnr
switch-frames     420-8       -l 12 -s 9 --low-latency --switch-frame-interval 3
"""

FFMPEG = """
aom-still         420-8       -frames:v 1 -c:v libaom-av1 -still-picture 1 -cpu-used 6
aom-gbr           444-8       -frames:v 2 -pix_fmt gbrp -c:v libaom-av1 -cpu-used 6
aom-gray-10       gray-10     -frames:v 2 -pix_fmt gray10le -c:v libaom-av1 -cpu-used 6
aom-full-range    420-8       -frames:v 2 -vf scale=out_range=pc -color_range pc -c:v libaom-av1 -cpu-used 6
rav1e             420-8       -frames:v 2 -c:v librav1e -speed 10
ticks-1           420-8       -frames:v 2 -c:v libaom-av1 -cpu-used 6 -bsf:v av1_metadata=tick_rate=50:num_ticks_per_picture=2
ticks-1000        420-8       -frames:v 2 -c:v librav1e -speed 10 -bsf:v av1_metadata=tick_rate=25000/1001:num_ticks_per_picture=1001
ticks-many        420-10      -frames:v 2 -c:v libaom-av1 -cpu-used 6 -bsf:v av1_metadata=tick_rate=2147483647:num_ticks_per_picture=2147483647
ticks-variable    420-8       -frames:v 2 -c:v libsvtav1 -preset 12 -bsf:v av1_metadata=tick_rate=90000
colour-reserved   420-8       -frames:v 2 -c:v libaom-av1 -cpu-used 6 -bsf:v av1_metadata=color_primaries=255:transfer_characteristics=254:matrix_coefficients=253:color_range=pc:chroma_sample_position=colocated
"""

# the numbers of spatial and of temporal layers
LAYERS = """
1-2               420-8       1 2
1-3               420-8       1 3
2-1               420-8       2 1
2-3               odd         2 3
3-1               large       3 1
3-3               420-8       3 3
"""

# OBUs without a size field
ANNEXB = """
plain             420-8       --limit=3
best-128          tiny        --limit=3 --cpu-used=2 --sb-size=128
still             odd         --limit=1
mono-10           420-10      --limit=3 --monochrome --bit-depth=10
444               444-8       --limit=3 --profile=1 --enable-qm=1
timing-model      tiny        --limit=3 --timing-info=model --lag-in-frames=0
lossless          420-8       --limit=2 --lossless=1
aq-variance       large       --limit=3 --aq-mode=1 --deltaq-mode=0
"""

ENCODERS = {
    "aomenc": (AOMENC, "aomenc --ivf --quiet --threads=1 --passes=1 --cpu-used=6 {options} -o {out} {clip}"),
    "SvtAv1EncApp": (SVT, "SvtAv1EncApp --progress 0 --lp 1 {options} -i {clip} -b {out}"),
    "rav1e": (RAV1E, "rav1e --quiet -y --threads 1 {options} -o {out} {clip}"),
    "ffmpeg": (FFMPEG, "ffmpeg -v error -nostdin -y -i {clip} -threads 1 -bitexact {options} {out}"),
    "layers": (LAYERS, "layers {options} {clip} {out}"),
    "annexb": (ANNEXB, "aomenc --obu --annexb=1 --quiet --threads=1 --passes=1 --cpu-used=6 {options} -o {out}.obu {clip} && annexb.py {out}.obu {out}"),
}


class Stream(NamedTuple):
    encoder: str
    name: str
    command: str

    def out(self):
        return f"{self.name}.ivf"

    def commands(self):
        return [shlex.split(command) for command in self.command.split(" && ")]


def streams():
    """Every stream, in the order of its name."""
    found = []
    for encoder, (table, template) in ENCODERS.items():
        for line in table.strip().splitlines():
            setting, clip, options = line.split(maxsplit=2)
            name = f"{encoder}-{setting}"
            found.append(Stream(encoder, name, template.format(options=options, clip=f"{clip}.y4m", out=f"{name}.ivf")))
    return sorted(found, key=lambda stream: stream.name)


def clip_command(name):
    picture, size, pixels, rate = CLIPS[name]
    source = picture.format(size=size, rate=rate)
    return shlex.split(f"ffmpeg -v error -nostdin -y -bitexact -f lavfi -i {source} -frames:v 24 -pix_fmt {pixels} -strict -1 {name}.y4m")
