// Dark or light: as the system has it, until the user says otherwise. Both are neutral greys round the image.

const KEY = "theme", system = matchMedia("(prefers-color-scheme: light)");

/** @type {(theme: string) => void} */
export function setTheme(theme) {
  document.documentElement.dataset.theme = theme;
}

// Gives what changes it
/** @type {(drawn: () => void) => () => void} */
export function followTheme(drawn) {
  const told = () => localStorage.getItem(KEY) ?? (system.matches ? "light" : "dark");
  const apply = () => { setTheme(told()); drawn(); };
  system.addEventListener("change", apply);
  addEventListener("storage", apply);
  apply();
  return () => {
    localStorage.setItem(KEY, told() === "light" ? "dark" : "light");
    apply();
  };
}
