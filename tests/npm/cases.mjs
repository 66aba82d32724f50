// Cases of the option `bound`. Each is a password and a secret in hexadecimal, and a text that asks for more than 16 passes.

export const ABOVE_BOUND = [
  ["45aff5b2b761553b31ec6cb75d93742b3a7c37539517715bf2ca65c0d166de5206074aae5f9dc34bb58d5d62f724566b6cc573db8be59f41c57e6348cf9cdd9c586625b74b81e812b1e8534a4f7053c2ead2c649fca6351b384e695f13eee9c4f91032ee5cad053f88d7b0c4c535ba4d848faebec0dad1e93bafce38bdc2808dd5228d453bb2006c92c0247d2208aa95", "6e0066f0b44adf696d7e719bcff5cdb4", "$argon2id$v=19$m=13,t=91,p=1$hkOg8n89OewDtKkyjZitxQ$xJakr1GFDz7T9ZhChFBAC6lABxu2ksJVB6RhPg30LSvnZpZxEaFUIgU1mViwWYA4Y6iYx3A4w+6DavpOt4pruA"],
  ["f752d017b931ebb23d7ce4a298a2f38698e42bfe82fbebea4f2fc01af86e946bd9ed684342c7744d4e0e1a8078", "4c7eb1846d84b1b989bb2bae3352e2229332331f", "$argon2id$v=19$m=46,t=93,p=4$YP6jwqf/RWaQYos+x+0kElbu3BG3IQ$649VLa2eAZyChsjtnyiyN+AB4MvGN6ifHrNxrnBfpRA"],
  ["ee81b6f0528a14b4ca88333681c370f54dc1d522aa577f4310237c38119ecfa4a26ac05508f59e73e33000bf6eb0fe42cf02ec760979c8e9cc4584da914cd5569fef59558e9c0d33fa1ac3fea37caf131bcf5750af43", "5a4d87c1258e871b64193b77a58bf2fc", "$argon2id$v=19$m=13,t=91,p=1,data=g/1cMu1G0DWDas7x8gSwLTtQRZpgSrMLf9j2BHpug8s$xEJ8Rl1RhYMXcwMVvPQFlw$MYlU3SZOxVqWKTHxJRvteSbGeIxA8mV9Bow5YlrHv40"],
];
