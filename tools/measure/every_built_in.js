var o = new Object(), a = new Array(3, "b", null), e = Array(2), x = Object();
o.k = String(12) + Number("0x1F") + Boolean("") + isNaN("z") + parseInt("-12px", 10);
var t = String.fromCharCode(97, 98, 42146) + NaN + Number.MAX_VALUE;
t += t.charAt(1) + t.charCodeAt(0) + t.indexOf("b", 0) + t.lastIndexOf("a") + t.substring(4, 1);
a = t.split("a"); a[7] = o; t = a.join("-"); a.reverse(); a.sort(); t += a + (255).toString(16) + true.toString() + (5).valueOf();
var d = new Date(2001, 1, 29, 25); t += d.getFullYear() + d.getMonth() + d.getDate() + d.getDay() + d.getHours() + d.getMinutes() + d.getSeconds() + Date();
function P(v) { this.v = v; } function f(n) { var l = n; return n ? f(n - 1) + l : 0; }
var p = new P(new Array("q", "w")); p.g = f; t += p.g(3) + typeof p + (p.v + 1);
a.length = 1; delete o.k; for (var k in p) t += k; browser.x = t; t = browser.x; document.y++; new String(a); isNaN = f; browser.end();
