// Writes the header text and all readouts of an ISMRMRD data set (HDF5) as an MRD message stream.
//
//   write_stream DATASET.h5 STREAM.mrd

#include <cstdint>
#include <exception>
#include <fstream>
#include <iostream>
#include <string>

#include <ismrmrd/dataset.h>
#include <ismrmrd/ismrmrd.h>

#include "../../field_data/put_messages.hpp"

static bool write_stream(const char *dataset_path, const char *stream_path)
{
    ISMRMRD::Dataset dataset(dataset_path, "dataset", false);
    std::ofstream stream(stream_path, std::ios::binary);
    std::string xml;
    dataset.readHeader(xml);
    put_text(stream, 3, xml);
    const uint32_t readouts = dataset.getNumberOfAcquisitions();
    for (uint32_t i = 0; i < readouts; i++) {
        ISMRMRD::Acquisition acq;
        dataset.readAcquisition(i, acq);
        put_acquisition(stream, acq);
    }
    put_close(stream);
    stream.close();
    return stream.good();
}

int main(int argc, char **argv)
{
    if (argc != 3) {
        std::cerr << "usage: write_stream DATASET.h5 STREAM.mrd\n";
        return 2;
    }
    try {
        return write_stream(argv[1], argv[2]) ? 0 : 1;
    } catch (const std::exception &fault) {
        std::cerr << "write_stream: " << fault.what() << '\n';
        return 1;
    }
}
