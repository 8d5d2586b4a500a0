"use strict";

// The one script that is not packed. When all of the file is there it unpacks the others and runs the page's own, or says why not: in
// words that old browsers know. It is at the beginning, so that a file that is cut short says so.
window.firstScript = (function () {
  var first = { fault: fault, bytesOf: bytesOf, inflated: inflated, unpacked: unpacked };

  function fault(error) {
    var box = document.getElementById("fault");
    box.hidden = false;
    document.getElementById("app").hidden = true;
    box.textContent = "This film can't be shown: " + error.message;
  }

  // The bytes of a text in base 64.
  function bytesOf(letters) {
    return Uint8Array.from(atob(letters.replace(/\s/g, "")), function (letter) { return letter.charCodeAt(0); });
  }

  // The bytes of a text in base 85: five letters from ! to u are four bytes; v is in the place of <, which would end the text, and z
  // is four zeros.
  function bytesOf85(letters) {
    var text = letters.replace(/\s/g, "").replace(/z/g, "!!!!!").replace(/v/g, "<"), number = 0;
    var size = Math.floor(text.length * 4 / 5), view = new DataView(new ArrayBuffer(size + 4));
    text += "uuuu".slice((text.length + 4) % 5);
    for (var at = 0; at < text.length; at++) {
      number = 85 * number + text.charCodeAt(at) - 33;
      if (at % 5 === 4) {
        view.setUint32((at - 4) / 5 * 4, number);
        number = 0;
      }
    }
    return new Uint8Array(view.buffer, 0, size);
  }

  function inflated(bytes, format) {
    return new Response(new Blob([bytes]).stream().pipeThrough(new DecompressionStream(format))).arrayBuffer();
  }

  // The bytes of a part of the page. The film alone, which a saved page writes anew, is in base 64.
  function unpacked(id) {
    return new Promise(function (done) {
      done(inflated((id === "film" ? bytesOf : bytesOf85)(document.getElementById(id).textContent), "deflate"));
    }).catch(function () { throw new Error("it is damaged: a part of it is missing"); });
  }

  function run(parts) {
    var script = document.createElement("script");
    script.textContent = parts.map(function (bytes) { return new TextDecoder().decode(bytes); }).join("");
    document.body.appendChild(script);
  }

  document.addEventListener("DOMContentLoaded", function () {
    first.original = "<!DOCTYPE html>\n" + document.documentElement.outerHTML; // as it was before anything was drawn
    if (!document.getElementById("end")) fault(new Error("its file is not whole, the end is missing: save or copy it again"));
    else if (window.DecompressionStream) Promise.all([unpacked("shared"), unpacked("view")]).then(run).catch(fault);
    else fault(new Error("this browser is too old, one of 2023 or later can"));
  });
  return first;
}());
