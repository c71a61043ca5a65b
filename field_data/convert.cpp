// Writes an ISMRMRD data set (HDF5) as two MRD message streams, and beside them a description of
// what the ISMRMRD library holds of that data set. A reader of a stream is judged by the description,
// which is taken from the library's struct members and accessors and never from a stream.
//
//   convert DATASET.h5 PACKED.mrd ALIGNED.mrd DESCRIPTION.txt
//
// Acquisition and image headers go into both streams as the library's own struct bytes. The library's
// waveform header is aligned (40 bytes): the one stream has the struct's bytes as they lie in memory,
// padding included; in the other, packed (32 bytes), its members go one by one.

#include <cstddef>
#include <cstdint>
#include <cstdio>
#include <cstring>
#include <exception>
#include <fstream>
#include <iostream>
#include <ostream>
#include <sstream>
#include <string>
#include <type_traits>

#include <ismrmrd/dataset.h>
#include <ismrmrd/ismrmrd.h>
#include <ismrmrd/meta.h>
#include <ismrmrd/version.h>
#include <ismrmrd/waveform.h>

#include "put_messages.hpp"

using namespace ISMRMRD;

// ---- The members of each header, in the library's order ----

#define COUNTERS_MEMBERS(M)                                                                        \
    M(kspace_encode_step_1) M(kspace_encode_step_2) M(average) M(slice) M(contrast) M(phase)       \
    M(repetition) M(set) M(segment) M(user)

// Without idx, whose members are those above.
#define ACQUISITION_MEMBERS(M)                                                                     \
    M(version) M(flags) M(measurement_uid) M(scan_counter) M(acquisition_time_stamp)               \
    M(physiology_time_stamp) M(number_of_samples) M(available_channels) M(active_channels)         \
    M(channel_mask) M(discard_pre) M(discard_post) M(center_sample) M(encoding_space_ref)          \
    M(trajectory_dimensions) M(sample_time_us) M(position) M(read_dir) M(phase_dir) M(slice_dir)   \
    M(patient_table_position) M(user_int) M(user_float)

#define IMAGE_MEMBERS(M)                                                                           \
    M(version) M(data_type) M(flags) M(measurement_uid) M(matrix_size) M(field_of_view)            \
    M(channels) M(position) M(read_dir) M(phase_dir) M(slice_dir) M(patient_table_position)        \
    M(average) M(slice) M(contrast) M(phase) M(repetition) M(set) M(acquisition_time_stamp)        \
    M(physiology_time_stamp) M(image_type) M(image_index) M(image_series_index) M(user_int)        \
    M(user_float) M(attribute_string_len)

#define WAVEFORM_MEMBERS(M)                                                                        \
    M(version) M(flags) M(measurement_uid) M(scan_counter) M(time_stamp) M(number_of_samples)      \
    M(channels) M(sample_time_us) M(waveform_id)

// ---- Numbers as the description has them ----

// FNV-1a over bytes given one by one, so that accessors can feed it.
class Checksum {
public:
    void add(const void *bytes, size_t length)
    {
        const unsigned char *b = static_cast<const unsigned char *>(bytes);
        for (size_t i = 0; i < length; i++)
            sum_ = (sum_ ^ b[i]) * UINT64_C(0x100000001b3);
        length_ += length;
    }

    friend std::ostream &operator<<(std::ostream &out, const Checksum &c)
    {
        char hex[17];
        std::snprintf(hex, sizeof hex, "%016llx", static_cast<unsigned long long>(c.sum_));
        return out << c.length_ << ' ' << hex;
    }

private:
    uint64_t sum_ = UINT64_C(0xcbf29ce484222325);
    size_t length_ = 0;
};

const char *type_name(uint16_t) { return "u16"; }
const char *type_name(uint32_t) { return "u32"; }
const char *type_name(uint64_t) { return "u64"; }
const char *type_name(int32_t) { return "i32"; }
const char *type_name(float) { return "f32"; }

template <typename T> void tell_number(std::ostream &out, T number) { out << ' ' << number; }

// A float by its bits: decimal digits would lose a NaN's and hide a rounding.
template <> void tell_number(std::ostream &out, float number)
{
    uint32_t bits;
    std::memcpy(&bits, &number, sizeof bits);
    char hex[9];
    std::snprintf(hex, sizeof hex, "%08x", bits);
    out << ' ' << hex;
}

template <typename T> void tell_member(std::ostream &out, const char *name, T number)
{
    out << name;
    tell_number(out, number);
    out << '\n';
}

template <typename T, size_t N>
void tell_member(std::ostream &out, const char *name, const T (&numbers)[N])
{
    out << name;
    for (size_t i = 0; i < N; i++)
        tell_number(out, numbers[i]);
    out << '\n';
}

// ---- The tables of offsets ----

template <typename Member> void tell_offset(std::ostream &out, const char *name, size_t offset)
{
    using Element = std::remove_all_extents_t<Member>;
    out << "member " << name << ' ' << type_name(Element()) << ' '
        << sizeof(Member) / sizeof(Element) << ' ' << offset << '\n';
}

void tell_tables(std::ostream &out)
{
#define OFFSET(member) tell_offset<decltype(H::member)>(out, #member, offsetof(H, member));
    {
        using H = ISMRMRD_EncodingCounters;
        out << "table counters " << sizeof(H) << '\n';
        COUNTERS_MEMBERS(OFFSET)
    }
    {
        using H = ISMRMRD_AcquisitionHeader;
        out << "table acquisition " << sizeof(H) << '\n';
        ACQUISITION_MEMBERS(OFFSET)
        out << "counters_at " << offsetof(H, idx) << '\n';
    }
    {
        using H = ISMRMRD_ImageHeader;
        out << "table image " << sizeof(H) << '\n';
        IMAGE_MEMBERS(OFFSET)
    }
    {
        using H = ISMRMRD_WaveformHeader;
        out << "table waveform " << sizeof(H) << '\n';
        WAVEFORM_MEMBERS(OFFSET)
    }
#undef OFFSET
}

// ---- What the library holds of each record ----

#define MEMBER(member) tell_member(out, #member, head.member);

void tell_acquisition(std::ostream &out, Acquisition &acq)
{
    const ISMRMRD_AcquisitionHeader &head = acq.getHead();
    ACQUISITION_MEMBERS(MEMBER)
    {
        const ISMRMRD_EncodingCounters &head = acq.idx();
        COUNTERS_MEMBERS(MEMBER)
    }
    out << "flags_set";
    for (uint64_t n = 1; n <= 64; n++)
        if (acq.isFlagSet(n))
            out << ' ' << n;
    out << "\nmask_channels";
    for (uint16_t channel = 0; channel < 1024; channel++)
        if (acq.isChannelActive(channel))
            out << ' ' << channel;
    out << '\n';
    Checksum trajectory;
    for (uint16_t sample = 0; sample < head.number_of_samples; sample++)
        for (uint16_t dimension = 0; dimension < head.trajectory_dimensions; dimension++)
            trajectory.add(&acq.traj(dimension, sample), sizeof(float));
    out << "trajectory " << trajectory << '\n';
    for (uint16_t channel = 0; channel < head.active_channels; channel++) {
        Checksum samples;
        for (uint16_t sample = 0; sample < head.number_of_samples; sample++)
            samples.add(&acq.data(sample, channel), sizeof(complex_float_t));
        out << "channel " << channel << ' ' << samples << '\n';
    }
}

template <typename T> void tell_image(std::ostream &out, Image<T> &image)
{
    const ISMRMRD_ImageHeader &head = image.getHead();
    IMAGE_MEMBERS(MEMBER)
    std::string text;
    image.getAttributeString(text);
    Checksum attributes, pixels;
    attributes.add(text.data(), text.size());
    for (uint16_t channel = 0; channel < head.channels; channel++)
        for (uint16_t z = 0; z < head.matrix_size[2]; z++)
            for (uint16_t y = 0; y < head.matrix_size[1]; y++)
                for (uint16_t x = 0; x < head.matrix_size[0]; x++)
                    pixels.add(&image(x, y, z, channel), sizeof(T));
    out << "attributes " << attributes << "\npixels " << pixels << '\n';
}

void tell_waveform(std::ostream &out, const Waveform &waveform)
{
    const ISMRMRD_WaveformHeader &head = waveform.head;
    WAVEFORM_MEMBERS(MEMBER)
    Checksum data;
    for (const uint32_t *sample = waveform.begin_data(); sample != waveform.end_data(); sample++)
        data.add(sample, sizeof *sample);
    out << "waveform " << data << '\n';
}

void tell_text(std::ostream &out, const std::string &text)
{
    Checksum bytes;
    bytes.add(text.data(), text.size());
    out << "text " << bytes << '\n';
}

// ---- The stream ----

template <typename T> void put_image(std::ostream &stream, const Image<T> &image)
{
    const ISMRMRD_ImageHeader &head = image.getHead();
    put(stream, uint16_t(1022));
    put_bytes(stream, &head, sizeof head);
    put(stream, uint64_t(image.getAttributeStringLength()));
    put_bytes(stream, image.getAttributeString(), image.getAttributeStringLength());
    put_bytes(stream, image.getDataPtr(), image.getDataSize());
}

void put_waveform_data(std::ostream &stream, const Waveform &waveform)
{
    for (const uint32_t *sample = waveform.begin_data(); sample != waveform.end_data(); sample++)
        put(stream, *sample);
}

void put_packed_waveform(std::ostream &stream, const Waveform &waveform)
{
    const ISMRMRD_WaveformHeader &head = waveform.head;
    put(stream, uint16_t(1026));
#define PUT(member) put(stream, head.member);
    WAVEFORM_MEMBERS(PUT)
#undef PUT
    put_waveform_data(stream, waveform);
}

void put_aligned_waveform(std::ostream &stream, const Waveform &waveform)
{
    put(stream, uint16_t(1026));
    put_bytes(stream, &waveform.head, sizeof waveform.head);
    put_waveform_data(stream, waveform);
}

// ---- What the tools leave out, made by the library's own calls ----
//
// The phantom leaves most header members zero, its image has no attributes, and it has no waveform.
// A zero read from a wrong offset would go unseen, so acquisitions, an image and waveforms follow with
// another value in every element.

class Fill {
public:
    // The multiplier spreads each number over all bytes of its element.
    template <typename T> void operator()(T &member)
    {
        member = static_cast<T>(++next_ * UINT64_C(0x9e3779b97f4a7c15));
    }

    void operator()(float &member) { member = 1.0f / static_cast<float>(++next_); }

    template <typename T, size_t N> void operator()(T (&members)[N])
    {
        for (T &member : members)
            (*this)(member);
    }

private:
    uint64_t next_ = 0;
};

// A NaN that says more than 'NaN': its bits must survive.
float nan_with_payload()
{
    const uint32_t bits = 0x7fc12345;
    float number;
    std::memcpy(&number, &bits, sizeof number);
    return number;
}

const uint16_t FULL_SAMPLES = 12, FULL_CHANNELS = 3, FULL_DIMENSIONS = 3;

// The members that decide sizes keep what the rules allow: 3 of 70 channels, named in the mask.
AcquisitionHeader full_acquisition_header(const AcquisitionHeader &sized)
{
    AcquisitionHeader head = sized;
    Fill fill;
#define FILL(member) fill(head.member);
    ACQUISITION_MEMBERS(FILL)
#undef FILL
#define FILL(member) fill(head.idx.member);
    COUNTERS_MEMBERS(FILL)
#undef FILL
    head.version = sized.version;
    head.number_of_samples = FULL_SAMPLES;
    head.available_channels = 70;
    head.active_channels = FULL_CHANNELS;
    head.trajectory_dimensions = FULL_DIMENSIONS;
    head.discard_pre = 2;
    head.discard_post = 1;
    head.setAllChannelsNotActive();
    for (uint16_t channel : {0, 5, 69})
        head.setChannelActive(channel);
    head.clearAllFlags();
    for (ISMRMRD_AcquisitionFlags flag :
         {ISMRMRD_ACQ_FIRST_IN_ENCODE_STEP1, ISMRMRD_ACQ_IS_REVERSE, ISMRMRD_ACQ_USER8})
        head.setFlag(flag);
    head.user_float[7] = nan_with_payload();
    return head;
}

Acquisition full_acquisition()
{
    Acquisition acq(FULL_SAMPLES, FULL_CHANNELS, FULL_DIMENSIONS);
    acq.setHead(full_acquisition_header(acq.getHead()));
    for (uint16_t sample = 0; sample < FULL_SAMPLES; sample++) {
        for (uint16_t dimension = 0; dimension < FULL_DIMENSIONS; dimension++)
            acq.traj(dimension, sample) = float(sample) + 100.0f * float(dimension);
        for (uint16_t channel = 0; channel < FULL_CHANNELS; channel++)
            acq.data(sample, channel) = complex_float_t(float(sample), -float(channel));
    }
    return acq;
}

// Two channels in place of three: the library's resize leaves the mask as it is.
Acquisition compressed_acquisition()
{
    Acquisition acq = full_acquisition();
    acq.resize(FULL_SAMPLES, FULL_CHANNELS - 1, FULL_DIMENSIONS);
    return acq;
}

const char *const FULL_IMAGE = "full_image";

std::string attributes()
{
    MetaContainer meta;
    meta.set("DataRole", "Image");
    meta.set("ImageNumber", 1L);
    std::stringstream text;
    serialize(meta, text);
    return text.str();
}

void append_full_image(Dataset &dataset)
{
    Image<complex_float_t> image(8, 4, 2, 3);
    const ImageHeader sized = image.getHead();
    ImageHeader &head = image.getHead();
    Fill fill;
#define FILL(member) fill(head.member);
    IMAGE_MEMBERS(FILL)
#undef FILL
    head.version = sized.version;
    head.data_type = sized.data_type;
    std::memcpy(head.matrix_size, sized.matrix_size, sizeof head.matrix_size);
    head.channels = sized.channels;
    head.attribute_string_len = sized.attribute_string_len;
    head.user_float[7] = nan_with_payload();
    for (size_t i = 0; i < image.getNumberOfDataElements(); i++)
        image.begin()[i] = complex_float_t(float(i), -0.5f * float(i));
    image.setAttributeString(attributes());
    dataset.appendImage(FULL_IMAGE, image);
}

// The library's constructor leaves a header's padding zero. What else stands there goes through its
// calls and its file as it is, so the headers differ in it.
void append_waveforms(Dataset &dataset)
{
    const struct {
        uint16_t samples, channels;
        uint8_t padding;
    } made[] = {{25, 2, 0}, {7, 5, 0xa5}, {1, 3, 0x5a}};
    Fill fill;
    uint32_t level = 2048;
    for (const auto &of : made) {
        Waveform waveform(of.samples, of.channels);
        const ISMRMRD_WaveformHeader sized = waveform.head;
        ISMRMRD_WaveformHeader &head = waveform.head;
        std::memset(&head, of.padding, sizeof head);
#define FILL(member) fill(head.member);
        WAVEFORM_MEMBERS(FILL)
#undef FILL
        head.version = sized.version;
        head.number_of_samples = sized.number_of_samples;
        head.channels = sized.channels;
        for (uint32_t *sample = waveform.begin_data(); sample != waveform.end_data(); sample++)
            *sample = level += 97;
        dataset.appendWaveform(waveform);
    }
}

// ---- The data set, record by record ----

class Conversion {
public:
    Conversion(Dataset &dataset, std::ostream &packed, std::ostream &aligned, std::ostream &description)
        : dataset_(dataset), packed_(packed), aligned_(aligned), out_(description)
    {
    }

    void run()
    {
        header();
        for (uint32_t i = 0; i < dataset_.getNumberOfAcquisitions(); i++)
            acquisition(i);
        images<float>("cpp");
        images<complex_float_t>(FULL_IMAGE);
        for (uint32_t i = 0; i < dataset_.getNumberOfWaveforms(); i++)
            waveform(i);
        begin_record(4);
        to_both(put_close);
        out_ << "records " << records_ << '\n';
    }

private:
    // All but the waveforms is the same in both streams.
    template <typename Put> void to_both(Put put_to)
    {
        put_to(packed_);
        put_to(aligned_);
    }

    void begin_record(uint16_t id) { out_ << "record " << records_++ << ' ' << id << '\n'; }

    void header()
    {
        std::string xml;
        dataset_.readHeader(xml);
        begin_record(3);
        tell_text(out_, xml);
        to_both([&](std::ostream &stream) { put_text(stream, 3, xml); });
    }

    void acquisition(uint32_t i)
    {
        Acquisition acq;
        dataset_.readAcquisition(i, acq);
        begin_record(1008);
        tell_acquisition(out_, acq);
        to_both([&](std::ostream &stream) { put_acquisition(stream, acq); });
    }

    template <typename T> void images(const char *variable)
    {
        for (uint32_t i = 0; i < dataset_.getNumberOfImages(variable); i++) {
            Image<T> image;
            dataset_.readImage(variable, i, image);
            begin_record(1022);
            tell_image(out_, image);
            to_both([&](std::ostream &stream) { put_image(stream, image); });
        }
    }

    void waveform(uint32_t i)
    {
        Waveform waveform;
        dataset_.readWaveform(i, waveform);
        begin_record(1026);
        tell_waveform(out_, waveform);
        put_packed_waveform(packed_, waveform);
        put_aligned_waveform(aligned_, waveform);
    }

    Dataset &dataset_;
    std::ostream &packed_;
    std::ostream &aligned_;
    std::ostream &out_;
    size_t records_ = 0;
};

int convert(const char *dataset_path, const char *packed_path, const char *aligned_path,
            const char *description_path)
{
    Dataset dataset(dataset_path, "dataset", false);
    dataset.appendAcquisition(full_acquisition());
    dataset.appendAcquisition(compressed_acquisition());
    append_full_image(dataset);
    append_waveforms(dataset);
    std::ofstream packed(packed_path, std::ios::binary);
    std::ofstream aligned(aligned_path, std::ios::binary);
    std::ofstream description(description_path);
    description << "library ISMRMRD " << ISMRMRD_VERSION_MAJOR << '.' << ISMRMRD_VERSION_MINOR << '.'
                << ISMRMRD_VERSION_PATCH << '\n';
    tell_tables(description);
    Conversion(dataset, packed, aligned, description).run();
    packed.close();
    aligned.close();
    description.close();
    return packed.good() && aligned.good() && description.good() ? 0 : 1;
}

int main(int argc, char **argv)
{
    if (argc != 5) {
        std::cerr << "usage: convert DATASET.h5 PACKED.mrd ALIGNED.mrd DESCRIPTION.txt\n";
        return 2;
    }
    try {
        return convert(argv[1], argv[2], argv[3], argv[4]);
    } catch (const std::exception &fault) {
        std::cerr << "convert: " << fault.what() << '\n';
        return 1;
    }
}
