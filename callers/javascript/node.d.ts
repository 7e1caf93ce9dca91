export { FotsgureError, Aes, AesGcm, AesGcmSiv } from "./fotsgure.js";
