/* The virtual blocks of the Vulkan Memory Allocator (https://gpuopen.com/vulkan-memory-allocator/), as one more kind of places.c:

       c++ -O2 -DNDEBUG -I FOLDER -c places_vma.cpp      FOLDER has vk_mem_alloc.h; it needs vulkan.h, as Debian's libvulkan-dev has it
       cc -O2 -DWITH_VMA places.c places_vma.o ..        and the C++ library at the end

   A virtual block touches no memory and no device. An allocation of 2^level places is aligned to its size, as places are. */
#define VMA_IMPLEMENTATION
#define VMA_STATIC_VULKAN_FUNCTIONS 0
#define VMA_DYNAMIC_VULKAN_FUNCTIONS 0
#include <cstdint>
#include <vk_mem_alloc.h>

static VmaVirtualBlock block;
static VmaVirtualAllocation at_place[1 << 20];

extern "C" void start_vma(int top) {
    VmaVirtualBlockCreateInfo wanted = {};
    wanted.size = VkDeviceSize(1) << top;
    vmaCreateVirtualBlock(&wanted, &block);
}

extern "C" int64_t vma_get(int level) {
    VmaVirtualAllocationCreateInfo wanted = {};
    wanted.size = wanted.alignment = VkDeviceSize(1) << level;
    VmaVirtualAllocation given;
    VkDeviceSize place;
    if (vmaVirtualAllocate(block, &wanted, &given, &place) != VK_SUCCESS)
        return -1;
    at_place[place] = given;
    return int64_t(place);
}

extern "C" void vma_free(int64_t place) {
    vmaVirtualFree(block, at_place[place]);
}
