"""What the readers of the five frame parts must answer, read from request 1 and document 01 as in model.py. The crate has no such calls. One function for each
section of the standard, in the standard's order."""
from lines import READERS, RECORD, Record, numbers
from reader import Reader, Refused

FEATURE_BITS = [8, 6, 6, 6, 6, 3, 0, 0]
FEATURE_SIGNED = [1, 1, 1, 1, 1, 0, 0, 0]
FEATURE_MAX = [255, 63, 63, 63, 63, 7, 0, 0]


class Part(Reader):
    """The bits of some bytes, from a place on. Each section takes its context c and fills in the record p, which is all 0 before."""

    def __init__(self, data, place):
        super().__init__(data)
        self.at = place
        self.f(0)  # so that a place beyond the input is refused where no bit is needed, too

    # 4.10
    def su(self, n):
        value = self.f(n)
        return value - 2**n if value >= 2 ** (n - 1) else value

    # 5.9.11
    def loop_filter_params(self, c, p):
        if c.coded_lossless or c.allow_intrabc:
            p.loop_filter_ref_deltas[:] = 1, 0, 0, 0, -1, 0, -1, -1
            return
        p.loop_filter_ref_deltas[:], p.loop_filter_mode_deltas[:] = c.previous_ref_deltas, c.previous_mode_deltas
        level = p.loop_filter_level
        level[0], level[1] = self.f(6), self.f(6)
        if c.planes != 1 and (level[0] or level[1]):
            level[2], level[3] = self.f(6), self.f(6)
        p.loop_filter_sharpness, p.loop_filter_delta_enabled = self.f(3), self.f(1)
        if p.loop_filter_delta_enabled:
            p.loop_filter_delta_update = self.f(1)
        if p.loop_filter_delta_update:
            self.updates(p.loop_filter_ref_deltas)
            self.updates(p.loop_filter_mode_deltas)

    def updates(self, deltas):
        for i in range(len(deltas)):
            if self.f(1):
                deltas[i] = self.su(7)

    # 5.9.12
    def quantization_params(self, c, p):
        p.base_q_idx, p.delta_q_y_dc = self.f(8), self.read_delta_q()
        if c.planes != 1:
            if c.separate_uv_delta_q:
                p.diff_uv_delta = self.f(1)
            u = self.read_delta_q(), self.read_delta_q()
            v = (self.read_delta_q(), self.read_delta_q()) if p.diff_uv_delta else u
            p.delta_q_u_dc, p.delta_q_u_ac, p.delta_q_v_dc, p.delta_q_v_ac = u + v
        p.using_qmatrix = self.f(1)
        if p.using_qmatrix:
            p.qm_y, p.qm_u = self.f(4), self.f(4)
            p.qm_v = self.f(4) if c.separate_uv_delta_q else p.qm_u

    # 5.9.13
    def read_delta_q(self):
        return self.su(7) if self.f(1) else 0

    # 5.9.14
    def segmentation_params(self, c, p):
        p.segmentation_enabled = self.f(1)
        if not p.segmentation_enabled:
            return
        if c.primary_ref_frame == 7:
            p.segmentation_update_map = p.segmentation_update_data = 1
        else:
            p.segmentation_update_map = self.f(1)
            if p.segmentation_update_map:
                p.segmentation_temporal_update = self.f(1)
            p.segmentation_update_data = self.f(1)
        if p.segmentation_update_data:
            for segment in range(8):
                for j in range(8):
                    self.feature(p, 8 * segment + j, j)

    def feature(self, p, i, j):
        p.feature_enabled[i] = self.f(1)
        if p.feature_enabled[i]:
            value = self.su(1 + FEATURE_BITS[j]) if FEATURE_SIGNED[j] else self.f(FEATURE_BITS[j])
            p.feature_data[i] = min(max(value, -FEATURE_MAX[j]), FEATURE_MAX[j])

    # 5.9.19
    def cdef_params(self, c, p):
        p.cdef_damping = 3
        if c.coded_lossless or c.allow_intrabc or not c.enable_cdef:
            return
        p.cdef_damping += self.f(2)
        p.cdef_bits = self.f(2)
        for i in range(1 << p.cdef_bits):
            p.cdef_y_pri_strength[i], p.cdef_y_sec_strength[i] = self.f(4), self.secondary()
            if c.planes != 1:
                p.cdef_uv_pri_strength[i], p.cdef_uv_sec_strength[i] = self.f(4), self.secondary()

    def secondary(self):
        return (0, 1, 2, 4)[self.f(2)]

    # 5.9.20
    def lr_params(self, c, p):
        if c.all_lossless or c.allow_intrabc or not c.enable_restoration:
            return
        for i in range(1 if c.planes == 1 else 3):
            p.frame_restoration_type[i] = self.f(2)
            if p.frame_restoration_type[i]:
                p.uses_lr = 1
                p.uses_chroma_lr |= i > 0
        if not p.uses_lr:
            return
        p.lr_unit_shift = self.f(1)
        if c.use_128x128_superblock:
            p.lr_unit_shift += 1
        elif p.lr_unit_shift:
            p.lr_unit_shift += self.f(1)
        if c.subsampling_x and c.subsampling_y and p.uses_chroma_lr:
            p.lr_uv_shift = self.f(1)


SECTIONS = {"quant": Part.quantization_params, "seg": Part.segmentation_params, "lf": Part.loop_filter_params, "cdef": Part.cdef_params, "lr": Part.lr_params}


def zeros(word):
    p = Record()
    for name, _, count, array in RECORD[word]:
        setattr(p, name, [0] * count if array else 0)
    return p


def read(word, context, data, place):
    """The numbers of the answer to a reader's word."""
    if len(data) > 65536:
        return 8, 0, 0
    p = zeros(READERS[word])
    try:
        part = Part(data, place)
        SECTIONS[READERS[word]](part, context, p)
    except Refused as refused:
        return refused.args
    return 0, part.at, *numbers(p, RECORD[READERS[word]])
