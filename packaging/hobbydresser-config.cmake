# find_package(hobbydresser) makes the target hobbydresser::hobbydresser, of the header and the archive of the place that was installed
# to: this file stands in its lib/cmake/hobbydresser.
if(NOT TARGET hobbydresser::hobbydresser)
  get_filename_component(hobbydresser_PREFIX "${CMAKE_CURRENT_LIST_DIR}/../../.." ABSOLUTE)
  add_library(hobbydresser::hobbydresser STATIC IMPORTED)
  set_target_properties(hobbydresser::hobbydresser PROPERTIES
    IMPORTED_LOCATION "${hobbydresser_PREFIX}/lib/libhobbydresser.a"
    INTERFACE_INCLUDE_DIRECTORIES "${hobbydresser_PREFIX}/include")
endif()
