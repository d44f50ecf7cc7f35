// Why a file isn't shown: over what stays, or in the first choice.

const box = document.createElement("div"), text = document.createElement("p"), close = document.createElement("button");
Object.assign(box, { id: "refusal", role: "alert", hidden: true });
close.textContent = "Close";
close.onclick = () => forgetRefusal();
box.append(text, close);

// As the first thing of an element
export function tellRefusal(told, over) {
  text.textContent = told;
  over.prepend(box);
  box.hidden = false;
}

export function forgetRefusal() {
  box.hidden = true;
}
