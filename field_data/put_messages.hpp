// Writes what the ISMRMRD library holds as messages of an MRD stream: what every converter here shares.

#ifndef PUT_MESSAGES_HPP
#define PUT_MESSAGES_HPP

#include <cstddef>
#include <cstdint>
#include <cstring>
#include <ostream>
#include <string>

#include <ismrmrd/ismrmrd.h>

// Little-endian, whatever the machine.
template <typename T> void put(std::ostream &stream, T number)
{
    for (size_t i = 0; i < sizeof number; i++)
        stream.put(static_cast<char>(static_cast<uint64_t>(number) >> (8 * i) & 0xff));
}

template <> inline void put(std::ostream &stream, float number)
{
    uint32_t bits;
    std::memcpy(&bits, &number, sizeof bits);
    put(stream, bits);
}

inline void put_bytes(std::ostream &stream, const void *bytes, size_t length)
{
    stream.write(static_cast<const char *>(bytes), static_cast<std::streamsize>(length));
}

inline void put_text(std::ostream &stream, uint16_t id, const std::string &text)
{
    put(stream, id);
    put(stream, uint32_t(text.size()));
    put_bytes(stream, text.data(), text.size());
}

inline void put_acquisition(std::ostream &stream, const ISMRMRD::Acquisition &acq)
{
    const ISMRMRD::ISMRMRD_AcquisitionHeader &head = acq.getHead();
    put(stream, uint16_t(1008));
    put_bytes(stream, &head, sizeof head);
    put_bytes(stream, acq.getTrajPtr(), acq.getTrajSize());
    put_bytes(stream, acq.getDataPtr(), acq.getDataSize());
}

inline void put_close(std::ostream &stream) { put(stream, uint16_t(4)); }

#endif
