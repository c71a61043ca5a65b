// Reads the readouts of an ISMRMRD data set (HDF5) and tells of them what `cotterleaf info` tells of a stream's.
//
//   read_dataset readouts DATASET.h5     each by the ISMRMRD library's readAcquisition, as the field's tools do it
//   read_dataset headers DATASET.h5      the headers alone, many at a time, by HDF5's own calls: no samples are read
//
// The lines that begin with a quotation mark stand in the answer of `cotterleaf info --json` as they are.

#include <algorithm>
#include <cstdint>
#include <exception>
#include <iostream>
#include <set>
#include <stdexcept>
#include <string>
#include <vector>

#include <hdf5.h>
#include <ismrmrd/dataset.h>
#include <ismrmrd/ismrmrd.h>

using Header = ISMRMRD::ISMRMRD_AcquisitionHeader;

// ---- What is told ----

struct Range {
    uint32_t least = UINT32_MAX, greatest = 0;

    void add(uint32_t number)
    {
        least = std::min(least, number);
        greatest = std::max(greatest, number);
    }

    void tell(const std::string &name) const
    {
        std::cout << '"' << name << "\":[" << least << ',' << greatest << "]\n";
    }
};

#define RANGES(M)                                                                                  \
    M(number_of_samples) M(available_channels) M(active_channels) M(trajectory_dimensions)         \
    M(encoding_space_ref) M(scan_counter) M(acquisition_time_stamp)

#define COUNTERS(M)                                                                                \
    M(kspace_encode_step_1) M(kspace_encode_step_2) M(average) M(slice) M(contrast) M(phase)       \
    M(repetition) M(set) M(segment)

// The names of the flags that the generator sets; any other is told by its number.
static std::string flag_name(unsigned flag)
{
    switch (flag) {
    case ISMRMRD::ISMRMRD_ACQ_FIRST_IN_SLICE: return "first_in_slice";
    case ISMRMRD::ISMRMRD_ACQ_LAST_IN_SLICE: return "last_in_slice";
    case ISMRMRD::ISMRMRD_ACQ_IS_NOISE_MEASUREMENT: return "is_noise_measurement";
    default: return "flag_" + std::to_string(flag);
    }
}

class Readouts {
public:
    void add(const Header &head)
    {
#define ADD(member) member##_.add(head.member);
        RANGES(ADD)
#undef ADD
#define ADD(member) member##_.add(head.idx.member);
        COUNTERS(ADD)
#undef ADD
        for (size_t i = 0; i < 8; i++)
            user_[i].add(head.idx.user[i]);
        for (uint64_t flags = head.flags; flags != 0; flags &= flags - 1)
            flags_[__builtin_ctzll(flags)]++;
        uids_.insert(head.measurement_uid);
        add_mask(head);
        add_step(head.scan_counter);
        count_++;
    }

    void tell() const
    {
        std::cout << "\"count\":" << count_ << '\n';
#define TELL(member) member##_.tell(#member);
        RANGES(TELL)
        COUNTERS(TELL)
#undef TELL
        for (size_t i = 0; i < 8; i++)
            user_[i].tell("user_" + std::to_string(i));
        for (unsigned i = 0; i < 64; i++)
            if (flags_[i] > 0)
                std::cout << '"' << flag_name(i + 1) << "\":" << flags_[i] << '\n';
        const char *before = "\"measurement_uids\":[";
        for (uint32_t uid : uids_) {
            std::cout << before << uid;
            before = ",";
        }
        std::cout << "]\nmasks that differ " << masks_differ_ << ", gaps " << gaps_ << ", repeats "
                  << repeats_ << ", steps back " << back_ << '\n';
    }

private:
    void add_mask(const Header &head)
    {
        int ones = 0;
        for (uint64_t word : head.channel_mask)
            ones += __builtin_popcountll(word);
        masks_differ_ += ones != 0 && ones != head.active_channels;
    }

    void add_step(uint32_t scan_counter)
    {
        const int32_t step = static_cast<int32_t>(scan_counter - last_);
        last_ = scan_counter;
        if (count_ == 0)
            return;
        gaps_ += step > 1;
        repeats_ += step == 0;
        back_ += step < 0;
    }

#define MEMBER(member) Range member##_;
    RANGES(MEMBER)
    COUNTERS(MEMBER)
#undef MEMBER
    Range user_[8];
    uint64_t flags_[64] = {};
    std::set<uint32_t> uids_;
    uint64_t count_ = 0, masks_differ_ = 0, gaps_ = 0, repeats_ = 0, back_ = 0;
    uint32_t last_ = 0;
};

// ---- The two ways to read ----

static void read_readouts(const char *path, Readouts &readouts)
{
    ISMRMRD::Dataset dataset(path, "dataset", false);
    const uint32_t count = dataset.getNumberOfAcquisitions();
    ISMRMRD::Acquisition acq;
    for (uint32_t i = 0; i < count; i++) {
        dataset.readAcquisition(i, acq);
        readouts.add(acq.getHead());
    }
}

// An HDF5 answer below zero is a fault.
template <typename T> T sound(T answer)
{
    if (answer < 0)
        throw std::runtime_error("HDF5 could not read the headers");
    return answer;
}

// The type that has of a readout the header alone: HDF5 then leaves out trajectory and samples.
static hid_t header_alone(hid_t data)
{
    const hid_t stored = sound(H5Dget_type(data));
    const hid_t head = sound(H5Tget_member_type(stored, unsigned(sound(H5Tget_member_index(stored, "head")))));
    if (H5Tget_size(head) != sizeof(Header))
        throw std::runtime_error("the stored headers are not laid out as the library's");
    const hid_t alone = sound(H5Tcreate(H5T_COMPOUND, sizeof(Header)));
    sound(H5Tinsert(alone, "head", 0, head));
    return alone;
}

// What is opened stays open until the process ends.
static void read_headers(const char *path, Readouts &readouts)
{
    const hid_t file = sound(H5Fopen(path, H5F_ACC_RDONLY, H5P_DEFAULT));
    const hid_t data = sound(H5Dopen2(file, "/dataset/data", H5P_DEFAULT));
    const hid_t type = header_alone(data);
    const hid_t space = sound(H5Dget_space(data));
    const hsize_t count = hsize_t(sound(H5Sget_simple_extent_npoints(space)));
    std::vector<Header> block(4096);
    for (hsize_t start = 0; start < count; start += block.size()) {
        const hsize_t size = std::min<hsize_t>(block.size(), count - start);
        const hid_t memory = sound(H5Screate_simple(1, &size, nullptr));
        sound(H5Sselect_hyperslab(space, H5S_SELECT_SET, &start, nullptr, &size, nullptr));
        sound(H5Dread(data, type, memory, space, H5P_DEFAULT, block.data()));
        sound(H5Sclose(memory));
        for (hsize_t i = 0; i < size; i++)
            readouts.add(block[i]);
    }
}

int main(int argc, char **argv)
{
    const std::string way = argc == 3 ? argv[1] : "";
    if (way != "readouts" && way != "headers") {
        std::cerr << "usage: read_dataset readouts|headers DATASET.h5\n";
        return 2;
    }
    try {
        Readouts readouts;
        way == "readouts" ? read_readouts(argv[2], readouts) : read_headers(argv[2], readouts);
        readouts.tell();
        return 0;
    } catch (const std::exception &fault) {
        std::cerr << "read_dataset: " << fault.what() << '\n';
        return 1;
    }
}
