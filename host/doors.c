#include "doors.h"

#include "../include/bike_map.h"
#include "../include/bike_pack.h"
#include "../reference/bike.h"

const struct doors library = {bike_make_key,   bike_wrap,      bike_open,      bike_pack_key,
                              bike_unpack_key, bike_map_write, bike_map_accept};
const struct doors reference = {ref_make_key_door, ref_wrap,      ref_open,      ref_pack_key,
                                ref_unpack_key,    ref_map_write, ref_map_accept};
