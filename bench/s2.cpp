// S2's leaf cells for bench/main.rs, its normalizing for bench/folds.rs, and its areas for bench/areas.rs: loops over S2's own functions, which the compiler calls as it would in C++.
// Each answers a sum of what it worked out, so that nothing is left out.
#include <cstddef>
#include <cstdint>
#include <s2/s2cell_id.h>
#include <s2/s2cell_union.h>
#include <vector>

// A leaf cell's face and its two coordinates on it.
struct FaceIJ {
    int32_t face, i, j;
};

extern "C" uint64_t s2_ids_to_ij(const uint64_t *ids, size_t count) {
    uint64_t sum = 0;
    for (size_t k = 0; k < count; k++) {
        int i, j;
        int face = S2CellId(ids[k]).ToFaceIJOrientation(&i, &j, nullptr);
        sum += face + 3 * uint64_t(i) + 5 * uint64_t(j);
    }
    return sum;
}

extern "C" uint64_t s2_ij_to_ids(const FaceIJ *cells, size_t count) {
    uint64_t sum = 0;
    for (size_t k = 0; k < count; k++) {
        sum += S2CellId::FromFaceIJ(cells[k].face, cells[k].i, cells[k].j).id() % 1024;
    }
    return sum;
}

extern "C" uint64_t s2_id(FaceIJ cell) {
    return S2CellId::FromFaceIJ(cell.face, cell.i, cell.j).id();
}

// The cells of face 0 at some positions of a level; normalizing sorts and shortens a copy of them.
static std::vector<S2CellId> prepared;

extern "C" void s2_prepare(const uint64_t *positions, size_t count, int level) {
    prepared.clear();
    for (size_t k = 0; k < count; k++)
        prepared.push_back(S2CellId::FromFacePosLevel(0, positions[k] << (2 * (S2CellId::kMaxLevel - level) + 1), level));
}

extern "C" size_t s2_normalize() {
    std::vector<S2CellId> ids = prepared;
    S2CellUnion::Normalize(&ids);
    return ids.size();
}

// Two unions of such cells, and what they have together and in common.
static S2CellUnion areas[2];

extern "C" size_t s2_area(int which, const uint64_t *positions, size_t count, int level) {
    s2_prepare(positions, count, level);
    areas[which] = S2CellUnion(prepared);
    return areas[which].num_cells();
}

extern "C" size_t s2_union() {
    return areas[0].Union(areas[1]).num_cells();
}

extern "C" size_t s2_intersection() {
    return areas[0].Intersection(areas[1]).num_cells();
}
