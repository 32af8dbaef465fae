# hanskup::hanskup is the header for C++ with the library that it calls: the static one, or the shared one where
# BUILD_SHARED_LIBS is set.
include("${CMAKE_CURRENT_LIST_DIR}/../delaunay_c/delaunay_cConfig.cmake")
if(NOT TARGET hanskup::hanskup)
    add_library(hanskup::hanskup INTERFACE IMPORTED)
    set_property(TARGET hanskup::hanskup PROPERTY INTERFACE_LINK_LIBRARIES delaunay_c::delaunay_c)
    set_property(TARGET hanskup::hanskup PROPERTY INTERFACE_COMPILE_FEATURES cxx_std_17)
endif()
