"""Programs of the distribution, what of each is captured, how its frame rate is read, and whose a hazard of theirs is."""

from dataclasses import dataclass, field

# How the rate of a program is read: from what it prints, or from the seconds that it takes for so many frames.
FPS = r"FPS: (\d+)"
SDL_FPS = r"([\d.]+) frames per second"
RATE_SECONDS = 4


@dataclass
class Application:
    """A program, and what of it is captured."""
    name: str
    command: list
    first: int
    count: int
    unit: str = "frames"
    environment: dict = field(default_factory=dict)
    # Layers that it always runs on, nearest to the driver.
    layers: tuple = ()
    ends: bool = True
    rate: str = None
    rate_command: list = None
    rate_frames: int = None

    def spec(self, file):
        spec = f"{self.first},{self.count},{file}"
        return spec + ",submissions" if self.unit == "submissions" else spec

    @property
    def has_rate(self):
        return self.rate is not None or self.rate_frames is not None

    def taken(self):
        frames = f"{self.first}-{self.first + self.count - 1}"
        return frames if self.unit == "frames" else f"{frames} ({self.unit})"


def vkmark(scene, system="xcb", seconds=RATE_SECONDS):
    return ["vkmark", "--winsys", system, "-s", "400x300", "-b", f"{scene}:duration={seconds}"]


def mpv(frames):
    return ["mpv", "--no-config", "--no-audio", "--vo=gpu-next", "--gpu-sw=yes", "--gpu-api=vulkan", "--gpu-context=x11vk", "--untimed",
            "--video-sync=desync", f"--frames={frames}", "av://lavfi:testsrc2=size=640x360:rate=60"]


def glmark2(scene, seconds):
    return ["glmark2", "-s", "400x300", "-b", f"{scene}:duration={seconds}"]


def ffmpeg(frames, *filters):
    return ["ffmpeg", "-v", "error", "-init_hw_device", "vulkan=v", "-f", "lavfi", "-i", "testsrc2=size=640x360:rate=60",
            "-frames:v", str(frames), *filters, "-f", "null", "-"]


def gstreamer(*sink):
    return ["gst-launch-1.0", "-q", "videotestsrc", "num-buffers=300", "!", "video/x-raw,width=320,height=240", "!", "vulkanupload", "!",
            "vulkancolorconvert", "!", *sink]


ZINK = {"LIBGL_ALWAYS_SOFTWARE": "1", "MESA_LOADER_DRIVER_OVERRIDE": "zink", "LIBGL_KOPPER_DRI2": "1"}
GTK = {"GSK_RENDERER": "vulkan", "GTK_A11Y": "none"}
QT = {"QT_QPA_PLATFORM": "xcb", "QSG_RHI_BACKEND": "vulkan"}
SHADER_EFFECTS = "/usr/lib/x86_64-linux-gnu/qt6/examples/quick/shadereffects/bin/shadereffectsexample"
SPINNING_CUBE = "/usr/libexec/installed-tests/SDL3/testgpu_spinning_cube"
FAMILIES = ("VK_LAYER_FRAMEC_families",)
BLUR = ("-filter_hw_device", "v", "-vf", "format=yuv420p,hwupload,avgblur_vulkan,hwdownload,format=yuv420p")

APPLICATIONS = [
    Application("vkcube", ["vkcube", "--c", "60"], 20, 4, rate_command=["vkcube", "--c", "600"], rate_frames=600),
    # The second family alone presents, so it hands its images over. (Without --gpu_number it asks the first family alone, and ends.)
    Application("vkcube, two families", ["vkcube", "--c", "60", "--gpu_number", "0"], 20, 4, environment={"FRAMEC_FAMILIES_PRESENT": "1"},
                layers=FAMILIES),
    Application("vkmark texture", vkmark("texture"), 5, 2, rate=FPS),
    Application("vkmark shading", vkmark("shading"), 5, 2, rate=FPS),
    Application("vkmark desktop", vkmark("desktop"), 5, 2, rate=FPS),
    Application("vkmark headless", vkmark("texture", "headless"), 5, 2, rate=FPS),
    Application("mpv", mpv(60), 20, 4, rate_command=mpv(60), rate_frames=60),
    Application("mpv, first frames", mpv(20), 1, 3),
    Application("mpv, three families", mpv(20), 10, 3, layers=FAMILIES),
    Application("SDL GPU", [SPINNING_CUBE], 20, 4, environment={"SDL_GPU_DRIVER": "vulkan"}, ends=False, rate=SDL_FPS),
    Application("Qt Quick", [SHADER_EFFECTS], 20, 4, environment=QT, ends=False),
    Application("GTK fishbowl", ["gtk4-demo", "--run=fishbowl"], 20, 2, environment=GTK, ends=False),
    Application("GTK widgets", ["gtk4-widget-factory"], 1, 3, environment=GTK, ends=False),
    Application("vkd3d-gears", ["vkd3d-gears"], 20, 2, ends=False),
    Application("GStreamer vulkansink", gstreamer("vulkansink"), 20, 2),
    Application("GStreamer to memory", gstreamer("video/x-raw(memory:VulkanImage),format=BGRA", "!", "vulkandownload", "!", "fakesink"), 20, 20,
                unit="submissions"),
    Application("FFmpeg libplacebo", ffmpeg(12, "-vf", "libplacebo=w=320:h=180"), 40, 20, unit="submissions",
                rate_command=ffmpeg(60, "-vf", "libplacebo=w=320:h=180"), rate_frames=60),
    Application("FFmpeg libplacebo, three families", ffmpeg(12, "-vf", "libplacebo=w=320:h=180"), 40, 20, unit="submissions", layers=FAMILIES),
    Application("FFmpeg blur", ffmpeg(12, *BLUR), 20, 20, unit="submissions", rate_command=ffmpeg(60, *BLUR), rate_frames=60),
    Application("zink shadow", glmark2("shadow", 3), 5, 3, environment=ZINK, rate=FPS, rate_command=glmark2("shadow", RATE_SECONDS)),
    Application("zink, first frames", glmark2("shadow", 3), 0, 2, environment=ZINK),
    Application("zink terrain", glmark2("terrain", 4), 1, 2, environment=ZINK),
]

# Whose a hazard is, by its cause. The file shows the calls of the program itself, so these are the program's.
CAUSES = {
    "presents without waiting for a semaphore": "the program's",
    "does not wait, at the stage of its barrier, for the acquire": "the program's",
    "a transition is not ordered before a stage that uses the piece": "the program's",
    "a transition is not behind a use before it": "the program's",
    "two actions touch the piece with no dependency between that names their stages": "the program's",
    "an acquire of ownership is behind no wait, or names no stage that a wait holds back": "the program's",
    "a render pass without an external dependency ends a layout change in NONE": "the program's",
}
