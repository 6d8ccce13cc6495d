/* What programs link against and this runtime lacks: each answers the error that its header has for a thing that the agent doesn't have,
   whatever its parameters are. */
#include <hsa/hsa_ext_image.h>

#include "hsa_common.h"

#define LACKS(function, status) \
    EXPORTED hsa_status_t lacks_##function(void) __asm__(#function); \
    EXPORTED hsa_status_t lacks_##function(void) \
    { \
        REQUIRE_INIT(); \
        if (the_runtime.traces) fprintf(stderr, "hobbydresser: " #function " isn't there\n"); \
        return (hsa_status_t)status; \
    }

/* Images: the extension isn't offered, and no agent has formats, images or samplers. */
LACKS(hsa_ext_image_get_capability, HSA_STATUS_ERROR_INVALID_AGENT)
LACKS(hsa_ext_image_get_capability_with_layout, HSA_STATUS_ERROR_INVALID_AGENT)
LACKS(hsa_ext_image_data_get_info, HSA_EXT_STATUS_ERROR_IMAGE_FORMAT_UNSUPPORTED)
LACKS(hsa_ext_image_data_get_info_with_layout, HSA_EXT_STATUS_ERROR_IMAGE_FORMAT_UNSUPPORTED)
LACKS(hsa_ext_image_create, HSA_EXT_STATUS_ERROR_IMAGE_FORMAT_UNSUPPORTED)
LACKS(hsa_ext_image_create_with_layout, HSA_EXT_STATUS_ERROR_IMAGE_FORMAT_UNSUPPORTED)
LACKS(hsa_ext_image_destroy, HSA_STATUS_ERROR_INVALID_AGENT)
LACKS(hsa_ext_image_copy, HSA_STATUS_ERROR_INVALID_AGENT)
LACKS(hsa_ext_image_import, HSA_STATUS_ERROR_INVALID_AGENT)
LACKS(hsa_ext_image_export, HSA_STATUS_ERROR_INVALID_AGENT)
LACKS(hsa_ext_image_clear, HSA_STATUS_ERROR_INVALID_AGENT)
LACKS(hsa_ext_sampler_create, HSA_EXT_STATUS_ERROR_SAMPLER_DESCRIPTOR_UNSUPPORTED)
LACKS(hsa_ext_sampler_destroy, HSA_STATUS_ERROR_INVALID_AGENT)
LACKS(hsa_amd_image_create, HSA_STATUS_ERROR_OUT_OF_RESOURCES)
LACKS(hsa_amd_image_get_info_max_dim, HSA_STATUS_ERROR_INVALID_AGENT)

/* Memory of the program's own, of another process, or of another interface: kernels reach what hsa_memory_allocate gives, and nothing else. */
LACKS(hsa_amd_memory_lock, HSA_STATUS_ERROR_OUT_OF_RESOURCES)
LACKS(hsa_amd_memory_lock_to_pool, HSA_STATUS_ERROR_OUT_OF_RESOURCES)
LACKS(hsa_amd_interop_map_buffer, HSA_STATUS_ERROR_OUT_OF_RESOURCES)
LACKS(hsa_amd_interop_unmap_buffer, HSA_STATUS_ERROR)
LACKS(hsa_amd_ipc_memory_create, HSA_STATUS_ERROR_OUT_OF_RESOURCES)
LACKS(hsa_amd_ipc_memory_attach, HSA_STATUS_ERROR_OUT_OF_RESOURCES)
LACKS(hsa_amd_ipc_memory_detach, HSA_STATUS_ERROR_INVALID_ARGUMENT)
LACKS(hsa_amd_ipc_signal_create, HSA_STATUS_ERROR_OUT_OF_RESOURCES)
LACKS(hsa_amd_ipc_signal_attach, HSA_STATUS_ERROR_OUT_OF_RESOURCES)
LACKS(hsa_amd_memory_async_copy_rect, HSA_STATUS_ERROR_OUT_OF_RESOURCES)
LACKS(hsa_amd_memory_migrate, HSA_STATUS_ERROR_OUT_OF_RESOURCES)
LACKS(hsa_amd_svm_attributes_get, HSA_STATUS_ERROR)
LACKS(hsa_amd_svm_attributes_set, HSA_STATUS_ERROR)
LACKS(hsa_amd_svm_prefetch_async, HSA_STATUS_ERROR)
LACKS(hsa_amd_pointer_info_set_userdata, HSA_STATUS_ERROR_INVALID_ARGUMENT)

/* No store to a signal goes around the broker. */
LACKS(hsa_amd_signal_value_pointer, HSA_STATUS_ERROR_INVALID_SIGNAL)

/* Nothing is profiled, and no agent has compute units to choose or coherency to set. */
LACKS(hsa_amd_profiling_get_async_copy_time, HSA_STATUS_ERROR_INVALID_SIGNAL)
LACKS(hsa_amd_profiling_get_dispatch_time, HSA_STATUS_ERROR_INVALID_SIGNAL)
LACKS(hsa_amd_profiling_convert_tick_to_system_domain, HSA_STATUS_ERROR_INVALID_AGENT)
LACKS(hsa_amd_queue_cu_get_mask, HSA_STATUS_ERROR_INVALID_QUEUE)
LACKS(hsa_amd_coherency_get_type, HSA_STATUS_ERROR_INVALID_AGENT)
LACKS(hsa_amd_coherency_set_type, HSA_STATUS_ERROR_INVALID_AGENT)

/* There are no events of the system, and no threads for functions of a program's own. */
LACKS(hsa_amd_register_system_event_handler, HSA_STATUS_ERROR)
LACKS(hsa_amd_async_function, HSA_STATUS_ERROR_OUT_OF_RESOURCES)
