-- A filter of pandoc: fenced code of the class `tikz`, and each `tikzpicture` that stands in the page as TeX, becomes a
-- picture, and a fault in it ends pandoc. The attribute `alt` is the picture's text, and `caption` makes a figure of it; an
-- identifier, further classes and all other attributes go to the picture. It wants tikzsvg-mark beside it, which calls tikzsvg,
-- or what the environment variable TIKZSVG names.

local page = PANDOC_STATE.input_files[1] or "-"
local mark = pandoc.path.join {pandoc.path.directory(PANDOC_SCRIPT_FILE), "tikzsvg-mark"}
local count = 0

-- The formats in whose pages a picture stands itself; those that take its file into the document; those that want a PDF.
local in_page = pandoc.List {"html", "html4", "html5", "chunkedhtml", "revealjs", "slidy", "slideous", "dzslides", "s5"}
local in_document = pandoc.List {"docx", "odt", "pptx", "epub", "epub2", "epub3", "fb2", "ipynb", "rtf"}
local as_pdf = pandoc.List {"latex", "beamer", "context"}

local function say(text)
  io.stderr:write(("tikz.lua: picture %d of %s: %s\n"):format(count, page, text))
end

local function drawn(source)
  local made, svg = pcall(pandoc.pipe, "sh", {mark, "-"}, source)
  if made then return svg end
  say("not drawn")  -- tikzsvg-mark has said why
  os.exit(83)  -- pandoc's own status where a filter has failed
end

local function escaped(text)
  return (text:gsub("[^%w._~-]", function(byte) return ("%%%02X"):format(byte:byte()) end))
end

-- The file of a picture: its kind, its media type and its bytes.
local function file_of(svg)
  if as_pdf:includes(FORMAT) then
    local made, pdf = pcall(pandoc.pipe, "rsvg-convert", {"-f", "pdf"}, svg)
    if made then return "pdf", "application/pdf", pdf end
    say("LaTeX takes no SVG, and rsvg-convert, which makes a PDF of it, isn't here or has failed")
  end
  return "svg", "image/svg+xml", svg
end

-- Where the picture is found: in the page, in the document, or in a file beside the output.
local function place_of(svg)
  if in_page:includes(FORMAT) then return "data:image/svg+xml," .. escaped(svg) end
  local kind, media, bytes = file_of(svg)
  local output = PANDOC_STATE.output_file or "-"
  local stem = output == "-" and "tikz" or pandoc.path.split_extension(output)
  local path = ("%s-%d.%s"):format(stem, count, kind)
  local name = pandoc.path.filename(path)
  pandoc.mediabag.insert(name, media, bytes)
  if not in_document:includes(FORMAT) and not output:find("%.pdf$") then
    local file = assert(io.open(path, "wb"))
    file:write(bytes)
    file:close()
  end
  return name
end

local function picture(source, attr)
  count = count + 1
  local place = place_of(drawn(source))
  local alt, caption = attr.attributes.alt, attr.attributes.caption
  caption = caption and pandoc.utils.blocks_to_inlines(pandoc.read(caption, "markdown").blocks)
  attr.attributes.caption = nil
  if not alt then
    say("it has no text that stands for it (alt)")
    attr.attributes.alt = ""
  end
  if not caption then return pandoc.Para {pandoc.Image(alt or "", place, "", attr)} end
  if pandoc.Figure then  -- since pandoc 3
    return pandoc.Figure(pandoc.Plain {pandoc.Image(alt or "", place, "", attr)}, {pandoc.Plain(caption)})
  end
  return pandoc.Para {pandoc.Image(caption, place, "fig:", attr)}
end

function CodeBlock(block)
  if not block.classes:includes("tikz") then return nil end
  local classes = block.classes:filter(function(class) return class ~= "tikz" end)
  return picture(block.text, pandoc.Attr(block.identifier, classes, block.attributes))
end

-- TeX in the page: an environment, which is a `tikzpicture` or has some in it. LaTeX and Beamer read it themselves.
function RawBlock(block)
  local is_tex = block.format == "tex" or block.format == "latex"
  if not is_tex or FORMAT == "latex" or FORMAT == "beamer" or not block.text:find("^%s*\\begin{") then return nil end
  local pictures = pandoc.List {}
  local rest = block.text:gsub("\\begin{tikzpicture}.-\\end{tikzpicture}", function(source)
    pictures:insert(picture(source, pandoc.Attr()))
    return ""
  end)
  if #pictures == 0 then return nil end
  if rest:find("%S") then say("the TeX round it is left out") end
  return pictures
end
