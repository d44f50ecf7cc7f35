// What the page needs of its browser: where it is missing, a sentence says so and nothing else begins. Old browsers read this too, so it is written as of old.
(function () {
  var wasm = window.WebAssembly, missing = [];
  // A module with a table and a memory of 64-bit places, and nothing else
  var wide = new Uint8Array([0, 97, 115, 109, 1, 0, 0, 0, 4, 4, 1, 112, 4, 1, 5, 3, 1, 4, 1]);
  if (!wasm || !wasm.validate(wide)) missing.push("64-bit memory");
  if (!wasm || !wasm.Suspending || !wasm.promising) missing.push("JavaScript promise integration");
  if (missing.length) {
    document.body.innerHTML = "<p id='missing' style='margin: 3em'></p>";
    document.getElementById("missing").textContent = "This browser can't run framedbg: its WebAssembly lacks " + missing.join(" and ")
      + ". Chromium 156 and Firefox 153 have both, and tools/view needs neither.";
    return;
  }
  var begin = document.createElement("script");
  begin.id = "begin";
  begin.type = "module";
  begin.textContent = 'import "viewer.js";';
  document.body.appendChild(begin);
})();
