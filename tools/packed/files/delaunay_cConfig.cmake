# delaunay_c::delaunay_c is the static library, or the shared one where BUILD_SHARED_LIBS is set; each has a name of its
# own too, delaunay_c::static and delaunay_c::shared.
get_filename_component(_delaunay_c_root "${CMAKE_CURRENT_LIST_DIR}/../../.." ABSOLUTE)
if(NOT TARGET delaunay_c::static)
    add_library(delaunay_c::static STATIC IMPORTED)
    set_target_properties(delaunay_c::static PROPERTIES
        IMPORTED_LOCATION "${_delaunay_c_root}/lib/libdelaunay_c.a"
        INTERFACE_INCLUDE_DIRECTORIES "${_delaunay_c_root}/include")
    add_library(delaunay_c::shared SHARED IMPORTED)
    set_target_properties(delaunay_c::shared PROPERTIES
        IMPORTED_LOCATION "${_delaunay_c_root}/lib/libdelaunay_c.so.1"
        IMPORTED_SONAME libdelaunay_c.so.1
        INTERFACE_INCLUDE_DIRECTORIES "${_delaunay_c_root}/include")
    add_library(delaunay_c::delaunay_c INTERFACE IMPORTED)
    if(BUILD_SHARED_LIBS)
        set_property(TARGET delaunay_c::delaunay_c PROPERTY INTERFACE_LINK_LIBRARIES delaunay_c::shared)
    else()
        set_property(TARGET delaunay_c::delaunay_c PROPERTY INTERFACE_LINK_LIBRARIES delaunay_c::static)
    endif()
endif()
unset(_delaunay_c_root)
